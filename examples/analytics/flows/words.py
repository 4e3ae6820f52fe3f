"""How figures are written for people, in tables of text and in pages."""

import datetime

PROTOCOLS = {
    1: "ICMP", 2: "IGMP", 4: "IPv4 in IP", 6: "TCP", 17: "UDP", 33: "DCCP", 41: "IPv6 in IP", 47: "GRE", 50: "ESP",
    51: "AH", 58: "ICMPv6", 89: "OSPF", 103: "PIM", 112: "VRRP", 132: "SCTP",
}
UNITS = ("", "k", "M", "G", "T", "P", "E")


def protocol(number):
    """The name of a protocol, or its number."""
    return PROTOCOLS.get(number, f"protocol {number}")


def service(port, number):
    """A service, as `443/TCP`."""
    return f"{port}/{protocol(number)}"


def moment(seconds):
    """A time in UTC, down to seconds; past the year 9999 the number itself."""
    try:
        return datetime.datetime.fromtimestamp(seconds, datetime.timezone.utc).strftime("%Y-%m-%d %H:%M:%S")
    except (ValueError, OverflowError, OSError):
        return str(seconds)


def size_class(digits):
    """The sizes of so many decimal digits, as `100 to 999` and `1k to <10k`."""
    if digits <= 3:
        return f"{10 ** (digits - 1) if digits > 1 else 0} to {10**digits - 1}"
    return f"{power(digits - 1)} to <{power(digits)}"


def power(exponent):
    """A power of ten in a few characters, as `10k`."""
    return f"{10 ** (exponent % 3)}{UNITS[exponent // 3]}"


def span(seconds):
    """A length of time, in its greatest whole unit."""
    for unit, name in ((86400, "day"), (3600, "hour"), (60, "minute")):
        if seconds % unit == 0:
            return f"{seconds // unit} {name}" + ("s" if seconds != unit else "")
    return f"{seconds} second" + ("s" if seconds != 1 else "")


def tables(answers):
    """The answers as tables: (key, title, heads, rows). The last three columns are octets, packets and flows."""
    amounts = ("octets", "packets", "flows")
    yield "sources", "Top talkers: who sent most", ("source", *amounts), answers.sources
    yield "destinations", "Who was sent most", ("destination", *amounts), answers.destinations
    yield (
        "services", "Services, by the lower port and protocol", ("service", *amounts),
        [(service(port, number), *amount) for port, number, *amount in answers.services],
    )
    yield (
        "protocols", "Protocols", ("protocol", *amounts),
        [(protocol(number), *amount) for number, *amount in answers.protocols],
    )
    yield (
        "sizes", "Flows by their octets", ("octets of a flow", *amounts),
        [(size_class(digits), *amount) for digits, *amount in answers.sizes],
    )
    yield (
        "traffic", f"Traffic over time, in steps of {span(answers.step)} (UTC)", ("from", *amounts),
        [(moment(at), *amount) for at, *amount in answers.traffic],
    )


def text(answers):
    """The answers as tables of text."""
    totals = answers.totals
    lines = [
        f"{totals.flows:,} flows, {totals.octets:,} octets, {totals.packets:,} packets;"
        f" {totals.options:,} options records"
    ]
    if totals.first is not None:
        lines.append(f"flows began from {moment(totals.first // 1000)} to {moment(totals.last // 1000)} UTC")
    for _, title, heads, rows in tables(answers):
        cells = [heads, *((row[0], *(f"{amount:,}" for amount in row[1:])) for row in rows)]
        widths = [max(len(row[column]) for row in cells) for column in range(len(heads))]
        lines += ["", title]
        for first, *others in cells:
            amounts = (cell.rjust(width) for cell, width in zip(others, widths[1:]))
            lines.append("  ".join([first.ljust(widths[0]), *amounts]))
    return "\n".join(lines) + "\n"
