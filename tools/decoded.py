#!/usr/bin/env python3
"""A second reader of IPFIX Files, written apart from the program and slowly, from RFC 7011 and docs/FORMATS.md.

    tools/decoded.py FILE..

prints what the messages of each file are decoded to: of each message its domain, export time and sequence number, or
that it is left out; of each data set its template ID and the values of its records, or that it is skipped.
"""

import sys

VARIABLE = 65535
MOST_DOMAINS = 1024


class Malformed(Exception):
    """A message that breaks a rule."""


def number(octets):
    return int.from_bytes(octets, "big")


def is_bad(rest):
    """No message can begin so."""
    return len(rest) >= 4 and (number(rest[:2]) != 10 or number(rest[2:4]) < 16)


def cut(stream):
    """The whole messages of a stream, and the rest, which is torn or bad if it isn't empty."""
    messages = []
    while len(stream) >= 4 and not is_bad(stream) and number(stream[2:4]) <= len(stream):
        length = number(stream[2:4])
        messages.append(stream[:length])
        stream = stream[length:]
    return messages, stream


def messages_of(stream):
    """The whole messages of a stream, up to what is torn or bad."""
    return cut(stream)[0]


def sets_of(message):
    """The sets of a message, each with its ID and its body."""
    at = 16
    while at < len(message):
        if len(message) - at < 4:
            raise Malformed
        length = number(message[at + 2 : at + 4])
        if length < 4 or at + length > len(message):
            raise Malformed
        yield number(message[at : at + 2]), message[at + 4 : at + length]
        at += length


def template_records_of(set_id, body):
    """(template ID, None) for a withdrawal, else (template ID, (kind, scope, fields))."""
    while len(body) >= 4 and any(body):
        template, count = number(body[:2]), number(body[2:4])
        if template < 256 and not (template == set_id and count == 0):
            raise Malformed
        body = body[4:]
        if count == 0:
            yield template, None
            continue
        scope = 0
        if set_id == 3:
            if len(body) < 2:
                raise Malformed
            scope, body = number(body[:2]), body[2:]
            if scope == 0 or scope > count:
                raise Malformed
        fields = []
        for _ in range(count):
            size = 8 if body and body[0] & 0x80 else 4
            if len(body) < size:
                raise Malformed
            enterprise = number(body[4:8]) if size == 8 else 0
            fields.append((enterprise, number(body[:2]) & 0x7FFF, number(body[2:4])))
            body = body[size:]
        if least(fields) == 0:
            raise Malformed
        yield template, (set_id, scope, fields)


def least(fields):
    return sum(1 if length == VARIABLE else length for _, _, length in fields)


def record_of(fields, body):
    """The values of the record that begins the body, and what is behind it; None where none does."""
    values = []
    for _, _, length in fields:
        if length == VARIABLE:
            if not body:
                return None
            length, body = body[0], body[1:]
            if length == 255:
                if len(body) < 2:
                    return None
                length, body = number(body[:2]), body[2:]
        if len(body) < length:
            return None
        values.append(body[:length])
        body = body[length:]
    return values, body


def records_of(fields, body):
    """The records of a body; None where it has no cutting into records and padding."""
    records = []
    while len(body) >= least(fields):
        found = record_of(fields, body)
        if found is None:
            return None
        records.append(found[0])
        body = found[1]
    return records


def touch(table, set_id, template, definition):
    if definition is not None:
        table[template] = definition
    elif template == set_id:
        for other in [key for key, (kind, _, _) in table.items() if kind == set_id]:
            del table[other]
    else:
        table.pop(template, None)


def decoded(stream):
    """The messages of a stream, each with its data sets as (ID, definition, records): without a definition and records
    where the set is skipped. A message that is left out has None in place of its sets."""
    tables = {}
    for message in messages_of(stream):
        try:
            sets = [(i, body, list(template_records_of(i, body)) if i in (2, 3) else []) for i, body in sets_of(message)]
        except Malformed:
            yield message, None
            continue
        domain = number(message[12:16])
        if domain not in tables and len(tables) == MOST_DOMAINS:
            yield message, None
            continue
        table, found = tables.setdefault(domain, {}), []
        for set_id, body, touches in sets:
            for template, definition in touches:
                touch(table, set_id, template, definition)
            if set_id not in (2, 3):
                definition = table.get(set_id) if set_id >= 256 else None
                records = records_of(definition[2], body) if definition else None
                found.append((set_id, definition, records))
        yield message, found


def print_file(path):
    with open(path, "rb") as file:
        stream = file.read()
    for message, sets in decoded(stream):
        if sets is None:
            print(f"message left out, {len(message)} octets")
            continue
        print(f"message domain {number(message[12:16])} export {number(message[4:8])} sequence {number(message[8:12])}")
        for set_id, _, records in sets:
            if records is None:
                print(f"  set {set_id} skipped")
            for values in records or []:
                print(f"  set {set_id}: {' '.join(value.hex() or '-' for value in values)}")


if __name__ == "__main__":
    for path in sys.argv[1:]:
        print_file(path)
