"""What is asked of flows, and the answers. They come out of a database (database.py) or of sums (sums.py)."""

import dataclasses
import json

# Steps of time that people read well, in seconds: from a second to a year of 365 days.
STEPS = (1, 5, 10, 30, 60, 300, 900, 3600, 4 * 3600, 86400, 7 * 86400, 30 * 86400, 365 * 86400)
MOST_STEPS = 120
TOP = 10


@dataclasses.dataclass
class Totals:
    """All flows together."""

    flows: int
    options: int
    """Options records, which are no flows."""
    octets: int
    packets: int
    first: int | None
    """The first start of a flow, in milliseconds since 1970."""
    last: int | None
    """The last start of a flow."""


@dataclasses.dataclass
class Answers:
    """The answers. A flow counts in each table that it has the element for."""

    totals: Totals
    step: int
    """The step of `traffic` in seconds."""
    sources: list
    """The addresses that sent most: (address, octets, packets, flows)."""
    destinations: list
    """The addresses that most was sent to: (address, octets, packets, flows)."""
    services: list
    """The services of most traffic: (lower port, protocol, octets, packets, flows)."""
    protocols: list
    """All protocols: (protocol, octets, packets, flows)."""
    sizes: list
    """Flows by their size: (decimal digits of their octets, octets, packets, flows)."""
    traffic: list
    """What began in each step that has a flow: (seconds since 1970, octets, packets, flows)."""

    def to_json(self):
        return json.dumps(dataclasses.asdict(self), indent=1) + "\n"


def step_for(first, last):
    """The least step of at least a minute with which few enough rows come, for times in milliseconds."""
    if first is None:
        return 60
    for step in STEPS:
        if step >= 60 and last // (1000 * step) - first // (1000 * step) < MOST_STEPS:
            return step
    return STEPS[-1]


def most(table, top):
    """The rows of the most octets, of equals those of the least key first."""
    rows = sorted(table.items(), key=lambda row: (-row[1][0], row[0]))
    return [(*(key if type(key) is tuple else (key,)), *amount) for key, amount in rows[:top]]


def by_key(table):
    return [(key, *amount) for key, amount in sorted(table.items())]


def answers_of(sums, top=TOP, step=None):
    """The answers. The step is a multiple of that of the sums."""
    totals = Totals(**sums["totals"])
    step = step or step_for(totals.first, totals.last)
    traffic = {}
    for at, (octets, packets, flows) in sums["traffic"].items():
        row = traffic.setdefault(at * sums["step"] // step * step, [0, 0, 0])
        row[0] += octets
        row[1] += packets
        row[2] += flows
    return Answers(
        totals=totals,
        step=step,
        sources=most(sums["sources"], top),
        destinations=most(sums["destinations"], top),
        services=most(sums["services"], top),
        protocols=most(sums["protocols"], None),
        sizes=by_key(sums["sizes"]),
        traffic=by_key(traffic),
    )
