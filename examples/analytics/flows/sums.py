"""Sums over flows that can be made block by block, and added in any order."""

from .lines import Options

# The step in which traffic is kept where none is asked for: those that are chosen later are multiples of it.
BASE_STEP = 60

TABLES = ("sources", "destinations", "services", "protocols", "sizes", "traffic")


def no_sums(step=None):
    """The sums of nothing. A table has [octets, packets, flows] by key."""
    totals = {"flows": 0, "options": 0, "octets": 0, "packets": 0, "first": None, "last": None}
    return {"step": step or BASE_STEP, "totals": totals, **{table: {} for table in TABLES}}


def add(table, key, octets, packets):
    row = table.get(key)
    if row is None:
        table[key] = [octets, packets, 1]
    else:
        row[0] += octets
        row[1] += packets
        row[2] += 1


def sums_of(records, step=None):
    """The sums of records. Traffic is kept by the step, in seconds."""
    sums = no_sums(step)
    width = 1000 * sums["step"]
    sources, destinations, services, protocols, sizes, traffic = (sums[table] for table in TABLES)
    flows = options = all_octets = all_packets = 0
    first = last = None
    for record in records:
        if type(record) is Options:
            options += 1
            continue
        source, destination, source_port, destination_port, protocol, octets, packets, started, _ = record
        flows += 1
        if octets is None:
            octets = 0
        else:
            add(sizes, len(str(octets)), octets, packets or 0)
        packets = packets or 0
        all_octets += octets
        all_packets += packets
        if source is not None:
            add(sources, source, octets, packets)
        if destination is not None:
            add(destinations, destination, octets, packets)
        if source_port is not None and destination_port is not None and protocol is not None:
            port = source_port if source_port < destination_port else destination_port
            add(services, (port, protocol), octets, packets)
        if protocol is not None:
            add(protocols, protocol, octets, packets)
        if started is not None:
            add(traffic, started // width, octets, packets)
            first = started if first is None or started < first else first
            last = started if last is None or started > last else last
    sums["totals"] = {
        "flows": flows, "options": options, "octets": all_octets, "packets": all_packets, "first": first, "last": last,
    }
    return sums


def together(parts):
    """The sums of several, of the same step."""
    whole = no_sums(parts[0]["step"])
    for part in parts:
        for name in ("flows", "options", "octets", "packets"):
            whole["totals"][name] += part["totals"][name]
        for name, choose in (("first", min), ("last", max)):
            known = [sums["totals"][name] for sums in (whole, part) if sums["totals"][name] is not None]
            whole["totals"][name] = choose(known, default=None)
        for table in TABLES:
            rows = whole[table]
            for key, (octets, packets, flows) in part[table].items():
                row = rows.setdefault(key, [0, 0, 0])
                row[0] += octets
                row[1] += packets
                row[2] += flows
    return whole
