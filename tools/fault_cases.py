#!/usr/bin/env python3
"""Writes the cases of two outputs beside each other where each thing that can fail does.

An input over TCP opens, brings three messages of one record each, and closes; two outputs take them as JSON. What stands then
is counted here by hand: a message whose sequence number is behind the expected one is disordered.
Run it as tools/fault_cases.py > crates/script_run/data/outputs.cases
"""

MESSAGE = "000a0024 00000064 00000000 00000001 0002000c 01000001 00080004 01000008 0a000001"
LINE = '{"@type":"ipfix.entry","iana:sourceIPv4Address":"10.0.0.1"}'
COUNTS = "sessions messages records malformed late skipped ignored redefined lost disordered torn broken refused crowded stray opened released".split()


def table(of, **keys):
    return [f"[[{of}]]"] + [f'{key} = "{value}"' for key, value in keys.items()]


def description(inputs, log=None):
    lines = ["version = 1"] + ([f'order-log = "{log}"'] if log else [])
    for name in inputs:
        lines += table("input", name=name, kind="tcp", listen=f"at-{name}")
    for name in ("a", "b"):
        lines += table("output", name=name, kind="json", path=name)
    return lines


def events():
    return ["opened 0"] + ["bytes 0 @MESSAGE"] * 3 + ["closed 0"]


def summary(sessions, messages, disordered):
    counts = {"sessions": sessions, "messages": messages, "records": messages, "disordered": disordered}
    return [f"{name} {counts.get(name, 0)}" for name in COUNTS]


def text_of(word, lines, front=""):
    """A value of lines, and the front of one more."""
    if not lines and not front:
        return [f"{word} -"]
    return [f"{word} |"] + [f"  |{line}" for line in lines] + ([f"  >{front}"] if front else [])


def case(name, *, status, said, a=None, b=None, inputs=("in",), log=None, fails=(), sinks=("a", "b"), front="", ends=()):
    print(f"\ncase {name}\nwords collect -c conf")
    print("\n".join(text_of("text conf", description(inputs, log))))
    for one in inputs:
        print(f"source at-{one}")
        print("\n".join(f"  {event}" for event in events()))
    for sink in (*([log] if log else []), *sinks):
        print(f"sink {sink}")
    for fault in fails:
        print(fault)
    print(f"status {status}")
    print("\n".join(text_of("said", said)))
    if log:
        print("held log |\n  :0000 0000")
    if a is not None:
        print("\n".join(text_of("held a", [LINE] * a, front)))
    if b is not None:
        print("\n".join(text_of("held b", [LINE] * b)))
    print("\n".join(ends))


def main():
    print(f"# Written by tools/fault_cases.py.\n\n# A template of a source address, and one record.\npiece MESSAGE |\n  :{MESSAGE}")
    for k, lines in enumerate((0, 0, 1, 2, 3, 3)):
        said = ["source fault: in"] + summary(min(k, 1), lines, max(lines - 1, 0))
        case(f"the source fails at call {k}", status=3, said=said, a=lines, b=lines, fails=[f"fails at-in {k}"], ends=[f"left at-in {5 - k}", "placeopenings at-in 1"])
    for k in range(3):
        said = ["sink fault: a"] + summary(1, 3, 2)
        case(f"the sink of a fails at call {k} behind 5 octets", status=4, said=said, a=k, front=LINE[:5], b=3, fails=[f"sinkfails a {k}:5"], ends=["left at-in 0"])
    case("the sink of b can't be opened", status=4, said=["sink fault: b"], a=0, sinks=("a",), ends=["left at-in 5", "placeopenings at-in 1", "sinkopenings a 1", "sinkopenings b 1"])
    said = ["sink fault: order-log"] + summary(2, 6, 4)
    case("the order log fails at call 2", status=4, said=said, a=1, b=1, inputs=("in", "in2"), log="log", fails=["sinkfails log 2:0"], ends=["left at-in 0", "left at-in2 0"])
    case("printing fails at its first write", status=4, said=[], a=3, b=3, fails=["sayfails 0:0"], ends=["left at-in 0"])


if __name__ == "__main__":
    main()
