#!/usr/bin/env python3
"""Writes the example messages: as definitions with what they say, as their proofs, as constants for tests, and as
IPFIX Files.

Run at the top of the repository: python3 tools/examples.py && (cd crates/wire_spec && rt fmt) &&
(cd crates/sample_messages && rt fmt). With --compare nothing is written: it tells which files of examples/ and of the
crates' data/, and which messages in their cases, have other octets than the constant of their name.
"""

import glob
import hashlib
import os
import re
import sys

MESSAGES = {
    "one_flow": (
        "a template of three fields, and one record of it",
        "000a0034 00000064 00000000 00000001 00020014 01000003 00080004 000c0004 00010004"
        " 01000010 0a000001 0a000002 000003e8",
    ),
    "padded_flow": (
        "the same with three octets of padding behind the record",
        "000a0037 00000064 00000000 00000001 00020014 01000003 00080004 000c0004 00010004"
        " 01000013 0a000001 0a000002 000003e8 000000",
    ),
    "two_flows": (
        "the same with the record a second time",
        "000a0040 00000064 00000000 00000001 00020014 01000003 00080004 000c0004 00010004"
        " 0100001c 0a000001 0a000002 000003e8 0a000001 0a000002 000003e8",
    ),
    "variable_names": (
        "a name of variable length in both forms, and a set whose name runs over the end",
        "000a0030 00000064 00000000 00000001 0002000c 01000001 0052ffff 0100000e 03616263"
        " ff0003616263 01000006 0561",
    ),
    "empty_template": (
        "a template whose shortest record has no octet",
        "000a001c 00000064 00000000 00000001 0002000c 01000001 00010000",
    ),
    "withdrawal": (
        "the withdrawal of a template",
        "000a0018 00000064 00000001 00000001 00020008 01000000",
    ),
    "data_alone": (
        "a record without a template",
        "000a0020 00000064 00000001 00000001 01000010 0a000001 0a000002 000003e8",
    ),
    "first_template": (
        "a template of a source address, and one record",
        "000a0024 00000064 00000000 00000001 0002000c 01000001 00080004 01000008 0a000001",
    ),
    "second_template": (
        "a template of the same ID of a destination address, and one record",
        "000a0024 00000064 00000000 00000001 0002000c 01000001 000c0004 01000008 0a000002",
    ),
    "two_templates": (
        "both, one after the other",
        "000a0038 00000064 00000000 00000001 0002000c 01000001 00080004 01000008 0a000001"
        " 0002000c 01000001 000c0004 01000008 0a000002",
    ),
    "repeated_element": (
        "an element that stands twice around one of an enterprise",
        "000a0036 00000064 00000000 00000001 00020018 01000003 00010004 80070002 00000009"
        " 00010004 0100000e 00000005 abcd 00000006",
    ),
    "options": (
        "an options template with a scope field, two octets of padding, and one record",
        "000a0030 00000064 00000000 00000001 00030014 01010002 0001 00950004 000a0004 0000"
        " 0101000c 00000001 00000007",
    ),
    "no_sets": (
        "a message without sets",
        "000a0010 00000064 00000000 00000001",
    ),
}

# of several export times, with the sequence numbers of their order, and of several domains
TIMED = {
    "source_at_100": (
        "at 100 template 256 is a source address",
        "000a001c 00000064 00000000 00000001 0002000c 01000001 00080004",
    ),
    "destination_at_200": (
        "at 200 it is a destination address",
        "000a001c 000000c8 00000000 00000001 0002000c 01000001 000c0004",
    ),
    "next_hop_at_120": (
        "at 120 it is the address of a next hop",
        "000a001c 00000078 00000000 00000001 0002000c 01000001 000f0004",
    ),
    "data_at_150": (
        "records of template 256",
        "000a0018 00000096 00000000 00000001 01000008 0a000001",
    ),
    "data_at_199": ("", "000a0018 000000c7 00000001 00000001 01000008 0a000001"),
    "data_at_200": ("", "000a0018 000000c8 00000002 00000001 01000008 0a000001"),
    "data_at_119": ("", "000a0018 00000077 00000003 00000001 01000008 0a000001"),
    "data_at_99": ("", "000a0018 00000063 00000004 00000001 01000008 0a000001"),
    "data_at_1900": (
        "records 1,800 seconds after the template at 100, and one second later",
        "000a0018 0000076c 00000000 00000001 01000008 0a000001",
    ),
    "data_at_1901": ("", "000a0018 0000076d 00000001 00000001 01000008 0a000001"),
    "source_at_5000": (
        "at 5000 template 256 is a source address",
        "000a001c 00001388 00000000 00000001 0002000c 01000001 00080004",
    ),
    "flow_at_3200": (
        "1,800 seconds before it is a destination address, with a record",
        "000a0024 00000c80 00000000 00000001 0002000c 01000001 000c0004 01000008 0a000002",
    ),
    "other_at_3199": (
        "one second before that template 257 is a source address",
        "000a001c 00000c7f 00000001 00000001 0002000c 01010001 00080004",
    ),
    "other_data_at_3200": (
        "a record of template 257",
        "000a0018 00000c80 00000001 00000001 01010008 0a000001",
    ),
    "in_domain_2": (
        "a template of a source address, and one record, in domains 2 and 4",
        "000a0024 00000064 00000000 00000002 0002000c 01000001 00080004 01000008 0a000002",
    ),
    "in_domain_4": ("", "000a0024 00000064 00000000 00000004 0002000c 01000001 00080004 01000008 0a000004"),
}


def octets_of(messages):
    return {name: (about, bytes.fromhex(text.replace(" ", ""))) for name, (about, text) in messages.items()}


MESSAGES = octets_of(MESSAGES)
TIMED = octets_of(TIMED)

KINDS = {2: "Template", 3: "Options"}
TEMPLATE_RECORD = "record { front = lit≤ tt; unbroken = refl; whole = refl }"


def number(octets, at, count=2):
    return int.from_bytes(octets[at : at + count], "big")


def listed(items):
    return "(" + "".join(f"{item} ∷ " for item in items) + "[])"


def paired(items):
    text = "tt"
    for item in reversed(items):
        text = f"({item}, {text})"
    return text


def sets_of(message):
    at, sets = 16, []
    while at < len(message):
        size = number(message, at + 2)
        sets.append(message[at : at + size])
        at += size
    return sets


def template_records_of(octets):
    """The template records of a set as (octets, ID, field count, scope count, fields), and its padding."""
    at, records = 4, []
    while len(octets) - at >= 4 and any(octets[at:]):
        start, count, scope, fields = at, number(octets, at + 2), 0, []
        at += 4
        if count and number(octets, 0) == 3:
            scope = number(octets, at)
            at += 2
        for _ in range(count):
            enterprise = number(octets, at) & 0x8000
            pen = number(octets, at + 4, 4) if enterprise else 0
            fields.append((pen, number(octets, at) & 0x7FFF, number(octets, at + 2)))
            at += 8 if enterprise else 4
        records.append((octets[start:at], number(octets, start), count, scope, fields))
    return records, octets[at:]


def touch(kind, record):
    _, identifier, count, scope, fields = record
    if count:
        specs = listed(f"(record {{ pen = {pen}; id = {element}; len = {length} }})" for pen, element, length in fields)
        return f"(Define {identifier} (record {{ kind = {kind}; scope = {scope}; fields = {specs} }}))"
    return f"(WithdrawAll {kind})" if identifier < 256 else f"(Withdraw {identifier})"


def row(end, each):
    return f"record {{ end = {listed(end)}; whole = refl; each = {paired(each)}; ends = refl }}"


def said(message):
    """What a message says, and the proof that it is a message that says this."""
    parts, are, say = [], [], []
    for octets in sets_of(message):
        identifier = number(octets, 0)
        if identifier in KINDS:
            records, padding = template_records_of(octets)
            rows = f"{listed(listed(record[0]) for record in records)}, {row(padding, [TEMPLATE_RECORD] * len(records))}"
            parts.append(f"(Touches {listed(touch(KINDS[identifier], record) for record in records)})")
            are.append(f"record {{ unbroken = refl; whole = refl; body = ({rows}) }}")
            say.append(f"({rows}, refl)")
        else:
            parts.append(f"(Body {identifier} {listed(octets[4:])})")
            are.append("record { unbroken = refl; whole = refl; body = tt }")
            say.append("refl")
    says = (
        f"record {{ export = {number(message, 4, 4)}; sequence = {number(message, 8, 4)};"
        f" domain = {number(message, 12, 4)}; parts = {listed(parts)} }}"
    )
    proof = (
        "record {\n"
        f"  sets = {listed(listed(octets) for octets in sets_of(message))};\n"
        f"  are = record {{ unbroken = refl; body = {row(b'', are)} }};\n"
        f"  parts = {paired(say)};\n"
        "  export = refl;\n  sequence = refl;\n  domain = refl;\n}"
    )
    return says, proof


EMPTY_FAULT = """record { kind = EmptyRecord; at = 0 }"""


def empty_template_proof(octets):
    body = octets[20:]
    inner = (
        f"record {{ before = []; rest = {listed(body)}; whole = refl; each = tt; own = {EMPTY_FAULT};"
        " breaks = record { some = refl; broken = refl }; is = refl }"
    )
    outer = (
        f"record {{ before = []; rest = {listed(octets[16:])}; whole = refl; each = tt;"
        f" own = record {{ kind = EmptyRecord; at = 4 }}; breaks = ({EMPTY_FAULT}, {inner}, refl); is = refl }}"
    )
    return f"(record {{ kind = EmptyRecord; at = 4 }}, {outer}, refl)"


def write(path, text):
    with open(path, "w") as file:
        file.write(text)


def definition(name, about, octets, says):
    """The octets of a message and what they say; a message without a comment goes with the one above it."""
    comment = f"-- {about}\n" if about else ""
    return (
        f"{comment}abbrev pub {name} : List ℕ\n{name} = {listed(octets)[1:-1]}\n"
        + (f"\nabbrev pub {name}_message : Message\n{name}_message = {says}\n" if says else "")
    )


def proved(name, proof):
    return f"pub {name}_says : Says {name} {name}_message\n{name}_says = {proof}\n"


def write_definitions():
    specs = [
        """-- Example messages, and what they say. This file is written by tools/examples.py.
use Rattle.std.specs.Prelude.{ℕ, List, [], ◌∷◌}
use Rattle.col_base.specs.declared.base.Kind.TheVariants.{Template, Options}
use Rattle.wire_spec.specs.Content.{Message}
use Rattle.wire_spec.specs.Content.Touch.{Define, Withdraw}
use Rattle.wire_spec.specs.Content.Part.{Touches, Body}
"""
    ]
    proofs = [
        """-- The example messages say what they say. This file is written by tools/examples.py.
use Rattle.std.proofs.Common.{[], ◌∷◌, refl, lit≤}
use Rattle.wire_spec.specs.declared.malformed.MalformedKind.TheVariants.{EmptyRecord}
use Rattle.wire_spec.specs.Message.{FirstFault}
use Rattle.wire_spec.specs.Content.{Says}
use Rattle.wire_spec.specs.Examples.{%s}
"""
        % ", ".join(
            name if name == "empty_template" else f"{name}, {name}_message" for name in MESSAGES
        )
    ]
    for name, (about, octets) in MESSAGES.items():
        if name == "empty_template":
            specs.append(definition(name, about, octets, None))
            proofs.append(
                "pub empty_template_breaks : FirstFault empty_template (record { kind = EmptyRecord; at = 20 })\n"
                f"empty_template_breaks = {empty_template_proof(octets)}\n"
            )
            continue
        says, proof = said(octets)
        specs.append(definition(name, about, octets, says))
        proofs.append(proved(name, proof))
    write("crates/wire_spec/specs/Examples.antt", "\n".join(specs))
    write("crates/wire_spec/proofs/ExampleLemmas.antt", "\n".join(proofs))


# Parts of messages that tests name: the message, and its octets from one to another.
PARTS = {
    "flow_specifiers": ("the specifiers of the template of one_flow", "one_flow", 24, 36),
    "flow_record": ("the record of one_flow", "one_flow", 40, 52),
    "padded_flow_body": ("the record of padded_flow, with the padding", "padded_flow", 40, 55),
    "two_flows_body": ("both records of two_flows", "two_flows", 40, 64),
    "name_specifiers": ("the specifier of the template of variable_names", "variable_names", 24, 28),
    "names_body": ("the two names of variable_names", "variable_names", 32, 42),
    "repeated_specifiers": ("the specifiers of the template of repeated_element", "repeated_element", 24, 40),
    "repeated_record": ("the record of repeated_element", "repeated_element", 44, 54),
    "options_specifiers": ("the specifiers of the options template of options", "options", 26, 34),
    "options_record": ("the record of options", "options", 40, 48),
}


def literal(name, about, rows):
    """A constant of these octets, a line for each row."""
    text = "\\\n".join("".join(f"\\x{octet:02x}" for octet in row) for row in rows if row)
    return f'/// {about[0].upper()}{about[1:]}.\npub const {name.upper()}: &[u8] = b"{text}";\n'


def write_constants():
    text = ["// Example messages, and parts of them. This file is written by tools/examples.py.\n"]
    for name, (about, octets) in MESSAGES.items():
        text.append(literal(name, about, [octets[:16], *sets_of(octets)]))
    for name, (about, message, start, end) in PARTS.items():
        text.append(literal(name, about, [MESSAGES[message][1][start:end]]))
    write("crates/sample_messages/src/messages.rt", "\n".join(text))

    names, parts = list(MESSAGES), list(PARTS)
    whole = "\n".join(f"    ensures {name} {{ {name.upper()}.now ≡ {name} }}" for name in names)
    cut = "\n".join(
        f"    ensures {name} {{ {name.upper()}.now ≡ take {end - start} (drop {start} {message}) }}"
        for name, (_, message, start, end) in PARTS.items()
    )
    write(
        "crates/sample_messages/src/law.rt",
        f"""// The constants are the examples of the definitions. This file is written by tools/examples.py.
ghost use Rattle.std.specs.Prelude.{{◌≡◌, drop, take}};
ghost use Rattle.wire_spec.specs.Examples.{{{", ".join(names)}}};

use crate::messages::{{
    {", ".join(name.upper() for name in names + parts)},
}};

/// Each message has the octets of the example of its name in the definitions.
pub fn messages_are_those_of_the_definitions()
{whole}
{{}}

/// Each part stands in its message.
pub fn parts_stand_in_their_messages()
{cut}
{{}}
""",
    )


def write_timed():
    specs = [
        """-- Example messages of several export times and domains, and what they say. This file is written by tools/examples.py.
use Rattle.std.specs.Prelude.{ℕ, List, [], ◌∷◌}
use Rattle.col_base.specs.declared.base.Kind.TheVariants.{Template}
use Rattle.wire_spec.specs.Content.{Message}
use Rattle.wire_spec.specs.Content.Touch.{Define}
use Rattle.wire_spec.specs.Content.Part.{Touches, Body}
"""
    ]
    proofs = [
        """-- The messages of several export times and domains say what they say. This file is written by tools/examples.py.
use Rattle.std.proofs.Common.{[], ◌∷◌, refl, lit≤}
use Rattle.wire_spec.specs.Content.{Says}
use Rattle.wire_spec.specs.TimedExamples.{%s}
"""
        % ", ".join(f"{name}, {name}_message" for name in TIMED)
    ]
    for name, (about, octets) in TIMED.items():
        says, proof = said(octets)
        specs.append(definition(name, about, octets, says))
        proofs.append(proved(name, proof))
    write("crates/wire_spec/specs/TimedExamples.antt", "\n".join(specs))
    write("crates/wire_spec/proofs/TimedLemmas.antt", "\n".join(proofs))


def hundred_flows():
    """Ten messages with ten records each, of templates whose octet counts have 1 to 8 octets."""

    def template_set(lengths):
        records = b"".join(
            (255 + length).to_bytes(2, "big") + bytes([0, 3, 0, 8, 0, 4, 0, 12, 0, 4, 0, 1, 0, length])
            for length in lengths
        )
        return bytes([0, 2]) + (4 + len(records)).to_bytes(2, "big") + records

    def flow(index, length):
        source = bytes([10, 0, index // 10, 1 + index % 10])
        destination = bytes([192, 0, 2, 1 + index * 7 % 250])
        return source + destination + (1000 + index * 2654435761 % 2 ** (8 * length - 1)).to_bytes(16, "big")[16 - length :]

    def data_set(first, length):
        records = b"".join(flow(index, length) for index in range(first, first + 5))
        return (255 + length).to_bytes(2, "big") + (4 + len(records)).to_bytes(2, "big") + records

    templates = {0: range(1, 5), 2: range(5, 9), 4: range(1, 5), 7: range(1, 9)}
    lengths = [1, 4, 2, 3, 8, 4, 5, 6, 4, 7, 1, 8, 4, 2, 3, 4, 6, 8, 5, 7]
    file = b""
    for index in range(10):
        sets = template_set(templates[index]) if index in templates else b""
        for half in range(2):
            sets += data_set(10 * index + 5 * half, lengths[2 * index + half])
        header = [(2, 10), (2, 16 + len(sets)), (4, 1_000_000_000 + 60 * index), (4, 10 * index), (4, 1)]
        file += b"".join(value.to_bytes(size, "big") for size, value in header) + sets
    return file


def file_options():
    """A flow, and records of options: the flow keys of its template (RFC 7011, section 4.4), the checksum of the message
    (RFC 5655, section 8.1.1), which is worked out with zeros in its place, and the name of an interface. The first two
    hold of this file alone."""
    templates = "00020014 01000003 00080004 000c0004 00010004"
    options = (
        "0003002e 01010002 0001 00910002 00ad0008 01020002 0001 01070001 01060010"
        " 01030002 0001 000a0004 0052ffff"
    )
    flow = "01000010 0a000001 0a000002 000003e8"
    keys = "0101000e 0100 0000000000000003"
    checksum = "01020015 00"
    interface = "0103000d 00000007 0465746830"
    front = bytes.fromhex(f"000a0092 00000064 00000000 00000001 {templates} {options} {flow} {keys} {checksum}")
    behind = bytes.fromhex(interface)
    return front + hashlib.md5(front + bytes(16) + behind).digest() + behind


def write_files():
    os.makedirs("examples", exist_ok=True)
    for name, (_, octets) in MESSAGES.items():
        with open(f"examples/{name}.ipfix", "wb") as file:
            file.write(octets)
    with open("examples/hundred_flows.ipfix", "wb") as file:
        file.write(hundred_flows())
    with open("examples/file_options.ipfix", "wb") as file:
        file.write(file_options())


def constants():
    """The octets of each constant of sample_messages, by its name in lower case."""
    with open("crates/sample_messages/src/messages.rt") as file:
        found = re.findall(r'pub const (\w+): &\[u8\] =\s*b"([^"]*)"', file.read())
    return {name.lower(): bytes.fromhex("".join(re.findall(r"\\x(..)", text))) for name, text in found}


def pieces(path):
    """The pieces of a file of cases that are octets, by their names in lower case."""
    with open(path) as file:
        found = re.findall(r"^piece (\w+) \|\n((?:  :[0-9a-f ]+\n)+)", file.read(), re.M)
    return {name.lower(): bytes.fromhex(rows.replace(":", " ")) for name, rows in found}


def differing():
    """The files whose octets are not those of the constant of their name, and the constants without a file; the pieces
    of cases that are named as a constant, and have other octets."""
    there = constants()
    files = glob.glob("examples/*.ipfix") + glob.glob("crates/*/data/*.ipfix")
    names = {path: os.path.basename(path).removesuffix(".ipfix") for path in files}
    for path, name in sorted(names.items()):
        with open(path, "rb") as file:
            if name in there and file.read() != there[name]:
                yield path
    for name in sorted(set(MESSAGES) - {name for name in names.values() if name in there}):
        yield name
    for path in sorted(glob.glob("crates/*/data/*.cases")):
        for name, octets in pieces(path).items():
            if name in there and octets != there[name]:
                yield f"{name} in {path}"


if __name__ == "__main__":
    if sys.argv[1:] == ["--compare"]:
        found = list(differing())
        print("\n".join(f"differs: {what}" for what in found) or "ok")
        sys.exit(1 if found else 0)
    write_definitions()
    write_constants()
    write_timed()
    write_files()
