#!/usr/bin/env python3
"""try_edges.py PROGRAM [SEED]: runs the built program where the system, its caller or its files give it trouble.

Each try has a status, and a printed line where one is wanted. Files are made in a folder of their own, which goes at the
end. Nothing may crash, hang, or leave in OUT what docs/OPERATING.md doesn't describe.
"""
import os
import random
import subprocess
import sys
import tempfile

PROGRAM = os.path.abspath(sys.argv[1])
SEED = int(sys.argv[2]) if len(sys.argv) > 2 else 1
EXAMPLES = os.path.join(os.path.dirname(os.path.abspath(__file__)), "..", "examples")
USAGE = b"usage: ipfixcol direct IN OUT, check -c FILE, collect -c FILE, generate NUMBER COUNT\n"
SOURCE = b"source fault: in\n"
SINK = b"sink fault: out\n"
wrong = 0


def octets(path):
    with open(path, "rb") as file:
        return file.read()


def keep(path, content):
    with open(path, "wb") as file:
        file.write(content)


def run(words, **how):
    """The status, what was printed to standard output, and what to standard errors."""
    how = {"stdin": subprocess.DEVNULL, "stdout": subprocess.PIPE, **how}
    try:
        done = subprocess.run([PROGRAM, *words], stderr=subprocess.PIPE, timeout=60, **how)
    except subprocess.TimeoutExpired:
        return "no end", b"", b""
    return done.returncode, done.stdout, done.stderr


def tell(name, why):
    global wrong
    wrong += 1
    print(f"{name}: {why}")


def wants(name, words, status, printed=None, **how):
    got = run(words, **how)
    if got[0] != status or got[2] or (printed is not None and got[1] != printed):
        tell(name, f"{got[0]} {(got[1] or b'')[:80]!r} {got[2][:80]!r}, not {status} {printed!r}")


def refused_words():
    lists = [[], ["direct"], ["direct", "a"], ["direct", "a", "b", "c"], ["direct", "", "b"], ["direct", "a", ""]]
    lists += [["direct", "-a", "b"], ["--"], ["--help"], ["check", "-cx"], ["check", "-c", ""], ["check", "--config="]]
    lists += [["Direct", "a", "b"], ["x" * 100000], ["x"] * 20000]
    for no_text in (b"\xff", b"a\xffb", b"\xc0\x80", b"\xed\xa0\x80"):
        lists += [[no_text], [b"direct", no_text, b"o"], [b"direct", b"i", no_text]]
    for words in lists:
        wants(f"the words {str(words)[:60]}", words, 1, USAGE)


def names(flow, line):
    for name in ("a b", "a\nb", "\u00e9\u6f22", "'\"`$;*?[]{}()<>|&!#~%^=+,:@", "\t", "./-x", "\x01\x1b[31m", "\\", "x" * 255):
        keep(name, flow)
        wants(f"a file named {name!r:.20}", ["direct", name, "named"], 0, b"")
        if octets("named") != line:
            tell(f"a file named {name!r:.20}", "another line")
    for name in ("x" * 256, "x/" * 3000, "x" * 120000):
        wants("too long an IN", ["direct", name, "o"], 3, SOURCE)
        wants("too long an OUT", ["direct", "flow", name], 4, SINK)
        wants("too long a FILE", ["check", "-c", name], 3, b"source fault: " + name.encode() + b"\n")


def refused_by_the_system():
    os.mkdir("folder")
    os.symlink("loop", "loop")
    for name in ("missing", "folder", "loop", "/proc/self/mem"):
        wants(f"IN is {name}", ["direct", name, "o"], 3, SOURCE)
        wants(f"FILE is {name}", ["check", "-c", name], 3, b"source fault: " + name.encode() + b"\n")
    for name in ("folder", "missing/o", "loop", "/dev/full"):
        wants(f"OUT is {name}", ["direct", "flow", name], 4, SINK)
    wants("nothing to write to a full device", ["direct", "/dev/null", "/dev/full"], 0, b"")
    wants("FILE has no end", ["check", "-c", "/dev/zero"], 3, b"source fault: /dev/zero\n")
    keep("secret", b"")
    os.chmod("secret", 0)
    if os.getuid() == 0:
        nobody = {"user": 65534, "group": 65534, "extra_groups": []}
        wants("IN may not be read", ["direct", "secret", "/dev/null"], 3, SOURCE, **nobody)
        wants("OUT may not be written", ["direct", "flow", "secret"], 4, SINK, **nobody)


def one_file(flow, line):
    """What is read isn't written to, under whatever names."""
    keep("both", flow)
    os.symlink("both", "symbolic")
    os.link("both", "hard")
    for place in ("both", "symbolic", "hard", "./both"):
        for out in ("both", "symbolic", "hard", "/proc/self/cwd/both"):
            wants(f"IN is {place}, and OUT {out}", ["direct", place, out], 4, SINK)
    with open("both", "rb") as both:
        wants("IN is standard input, and OUT its file", ["direct", "/dev/stdin", "hard"], 4, SINK, stdin=both)
    if octets("both") != flow:
        tell("one file", "IN was changed")
    with open("shared", "ab") as shared:
        shared.write(b"what stood there before\n")
        shared.flush()
        wants("OUT is standard output, a file", ["direct", "flow", "/dev/stdout"], 0, stdout=shared)
        shared.write(b"what another wrote\n")
    if octets("shared") != line + b"what another wrote\n":
        tell("OUT is standard output, a file", "other lines")


def standard_streams(line):
    def without(*numbers):
        return lambda: [os.close(number) for number in numbers]

    description = os.path.join(EXAMPLES, "descriptions", "simple.toml")
    with open("/dev/full", "wb") as full:
        for name, how in (
            ("closed output", {"preexec_fn": without(1)}),
            ("closed input and output", {"preexec_fn": without(0, 1)}),
            ("closed streams", {"preexec_fn": without(0, 1, 2)}),
            ("full output", {"stdout": full}),
        ):
            wants(f"{name}: no words", [], 1, **how)
            wants(f"{name}: a flow", ["direct", "flow", "streams"], 0, **how)
            if octets("streams") != line:
                tell(name, "another line")
            wants(f"{name}: a record of options", ["direct", os.path.join(EXAMPLES, "options.ipfix"), "streams"], 0, **how)
            wants(f"{name}: no IN", ["direct", "missing", "streams"], 3, **how)
            wants(f"{name}: IN can't be read", ["direct", "folder", "streams"], 4, **how)
            if octets("streams"):
                tell(name, "something was written")
            wants(f"{name}: a description", ["check", "-c", description], 4, **how)
            wants(f"{name}: OUT is standard output", ["direct", "flow", "/dev/stdout"], 4, **how)
            wants(f"{name}: OUT is descriptor 1", ["direct", "flow", "/proc/self/fd/1"], 4, **how)
    wants("closed input: IN is standard input", ["direct", "/dev/stdin", "o"], 3, SOURCE, preexec_fn=without(0))


def pipes(flow, line):
    os.mkfifo("pipe")
    with subprocess.Popen(["sh", "-c", "cat flow > pipe"]):
        wants("IN is a pipe", ["direct", "pipe", "piped"], 0, b"")
    if octets("piped") != line:
        tell("IN is a pipe", "another line")
    with subprocess.Popen(["sh", "-c", "cat pipe > came"]):
        wants("OUT is a pipe", ["direct", "flow", "pipe"], 0, b"")
    if octets("came") != line:
        tell("OUT is a pipe", "another line")
    body = flow[40:] * 5000
    message = flow[16:36] + (256).to_bytes(2, "big") + (4 + len(body)).to_bytes(2, "big") + body
    message = flow[:2] + (16 + len(message)).to_bytes(2, "big") + flow[4:16] + message
    keep("many", message * 20)
    wants("many records", ["direct", "many", "lines"], 0, b"")
    if octets("lines") != line * 100000:
        tell("many records", "other lines")
    for count in (100, 70000):
        with subprocess.Popen(["sh", "-c", f"head -c {count} pipe > front"]):
            wants(f"the reader of OUT leaves after {count} octets", ["direct", "many", "pipe"], 4, SINK)
        if octets("front") != (line * 100000)[:count]:
            tell("the reader of OUT leaves", "other lines came")


def cut_files(examples):
    for content in examples:
        status, _, _ = run(["direct", keep("cut", content) or "cut", "cut.json"])
        whole = octets("cut.json") if status == 0 else b""
        for count in range(0, len(content), 1 if len(content) < 300 else 37):
            keep("cut", content[:count])
            got = run(["direct", "cut", "cut.json"])
            lines = octets("cut.json")
            if got != (0, b"", b"") or (status == 0 and not whole.startswith(lines)):
                tell(f"a file of {len(content)} octets cut to {count}", got)


def changed(content):
    content = bytearray(content * random.choice((1, 1, 2, 3)))[:20000]
    for _ in range(random.choice((1, 1, 2, 5, 40))):
        content[random.randrange(len(content))] = random.choice((0, 1, 2, 3, 4, 254, 255, random.randrange(256)))
    if random.random() < 0.2:
        del content[random.randrange(len(content)):]
    return bytes(content) if random.random() < 0.9 else random.randbytes(random.randrange(3000))


def changed_text(content):
    content = bytearray(content)
    for _ in range(random.choice((1, 1, 2, 5, 40))):
        at = random.randrange(len(content) + 1)
        if random.random() < 0.6:
            content[at:at + 1] = random.choice((b"[", b"]", b"{", b"=", b'"', b"\n", b"#", b",", b".", b"0", b"-", b"\xff", b"\0"))
        else:
            del content[at:at + random.randrange(20)]
    return bytes(content)


def random_files(examples, descriptions):
    for number in range(1000):
        keep("random", changed(random.choice(examples)))
        got = run(["direct", "random", "random.json"])
        lines = octets("random.json")
        if got != (0, b"", b"") or (lines and not lines.endswith(b"\n")):
            tell(f"changed file {number}", got)
    for number in range(400):
        keep("random", changed_text(random.choice(descriptions)))
        got = run(["check", "-c", "random"])
        if got[0] not in (0, 2, 3) or got[2] or not got[1].endswith(b"\n"):
            tell(f"changed description {number}", got)
    for content in (b"a = " + b"[" * 8000000, b"a = " + b"{a=" * 500000, b".".join([b"a"] * 500000) + b" = 1"):
        keep("random", content)
        wants("a deep description", ["check", "-c", "random"], 2, b"description: not TOML\n")


def large_files(flow):
    keep("zeros", bytes(100 << 20))
    wants("100 MiB of zeros", ["direct", "zeros", "large"], 0, b"")
    keep("zeros", flow[:2] + b"\0\x10" + flow[4:16])
    keep("empty", octets("zeros") * (1 << 20))
    wants("a million messages without sets", ["direct", "empty", "large"], 0, b"")
    if octets("large"):
        tell("large files", "something was written")


def main():
    random.seed(SEED)
    listed = sorted(os.listdir(EXAMPLES))
    examples = [octets(os.path.join(EXAMPLES, name)) for name in listed if name.endswith(".ipfix")]
    folder = os.path.join(EXAMPLES, "descriptions")
    descriptions = [octets(os.path.join(folder, name)) for name in sorted(os.listdir(folder))]
    flow = octets(os.path.join(EXAMPLES, "one_flow.ipfix"))
    with tempfile.TemporaryDirectory() as place:
        os.chdir(place)
        os.chmod(place, 0o777)
        keep("flow", flow)
        wants("a flow", ["direct", "flow", "o"], 0, b"")
        line = octets("o")
        refused_words()
        names(flow, line)
        refused_by_the_system()
        one_file(flow, line)
        standard_streams(line)
        pipes(flow, line)
        cut_files(examples)
        random_files(examples, descriptions)
        large_files(flow)
        if octets("flow") != flow:
            tell("a flow", "IN was changed")
        os.chdir("/")
    print("all as it is to be" if wrong == 0 else f"{wrong} wrong")
    return 1 if wrong else 0


sys.exit(main())
