"""The figures that are to come, worked out from the generator's flows in the plainest way, with none of the code under
test: all flows at once, a pass for each table."""

import ipaddress


def text(version, number):
    return str((ipaddress.IPv4Address if version == 4 else ipaddress.IPv6Address)(number))


def amounts(flows):
    return [sum(flow.octets for flow in flows), sum(flow.packets for flow in flows), len(flows)]


def table(flows, key_of):
    """A row [key, octets, packets, flows] for each key."""
    groups = {}
    for flow in flows:
        groups.setdefault(key_of(flow), []).append(flow)
    return [[key, *amounts(group)] for key, group in groups.items()]


def greatest(rows):
    return sorted(rows, key=lambda row: (-row[1], row[0]))


def service(flow):
    return min(flow.source_port, flow.destination_port), flow.protocol


def figures(flows, options, top, step):
    """The answers, as they stand in JSON."""
    octets, packets, count = amounts(flows)
    with_ports = [flow for flow in flows if flow.source_port is not None]
    return {
        "totals": {
            "flows": count, "options": options, "octets": octets, "packets": packets,
            "first": min(flow.started for flow in flows), "last": max(flow.started for flow in flows),
        },
        "step": step,
        "sources": greatest(table(flows, lambda flow: text(flow.version, flow.source)))[:top],
        "destinations": greatest(table(flows, lambda flow: text(flow.version, flow.destination)))[:top],
        "services": [[*key, *row] for key, *row in greatest(table(with_ports, service))[:top]],
        "protocols": greatest(table(flows, lambda flow: flow.protocol)),
        "sizes": sorted(table(flows, lambda flow: len(str(flow.octets)))),
        "traffic": sorted(table(flows, lambda flow: flow.started // 1000 // step * step)),
    }
