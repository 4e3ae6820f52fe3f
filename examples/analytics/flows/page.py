"""The answers as one page of HTML that stands alone: its pictures are in it, and it loads nothing."""

import base64
import datetime
import html
import io

import matplotlib
from matplotlib import dates, ticker
from matplotlib.figure import Figure

from . import words

SETTINGS = {
    "font.family": "sans-serif",
    "font.size": 10,
    "axes.spines.top": False,
    "axes.spines.right": False,
    "axes.axisbelow": True,
    "axes.grid": True,
    "grid.color": "#e3e6ea",
    "svg.fonttype": "none",  # text stays text
    "svg.hashsalt": "flows",  # the same page from the same records
}
BLUE, ORANGE = "#2563a8", "#c2571a"

STYLE = """
:root { color-scheme: light; }
body { font: 15px/1.5 system-ui, "DejaVu Sans", sans-serif; color: #1d2530; background: #fff; max-width: 62rem;
  margin: 2rem auto; padding: 0 1.25rem; }
h1 { font-size: 1.6rem; margin: 0 0 .25rem; }
h2 { font-size: 1.1rem; margin: 2rem 0 .5rem; }
p.from { color: #566273; margin: 0 0 1rem; overflow-wrap: anywhere; }
dl { display: flex; flex-wrap: wrap; gap: .5rem 2.25rem; margin: 0; }
dt { color: #566273; font-size: .85rem; }
dd { margin: 0; font-size: 1.15rem; font-variant-numeric: tabular-nums; }
.pair { display: grid; grid-template-columns: repeat(auto-fit, minmax(26rem, 1fr)); gap: 0 2rem; }
img { width: 100%; height: auto; display: block; }
table { border-collapse: collapse; width: 100%; font-variant-numeric: tabular-nums; font-size: .87rem; }
th, td { text-align: right; padding: .18rem .5rem; border-bottom: 1px solid #e3e6ea; }
th:first-child, td:first-child { text-align: left; padding-left: 0; overflow-wrap: anywhere; }
thead th { color: #566273; font-weight: 600; }
tbody th { font-weight: 400; }
details { margin-top: .5rem; }
summary { cursor: pointer; color: #2563a8; }
"""


# The last time that an axis shows; calendars end with the year 9999, and axes need room.
LAST = datetime.datetime(9000, 1, 1, tzinfo=datetime.timezone.utc).timestamp()


def instant(seconds):
    """A time for an axis."""
    return datetime.datetime.fromtimestamp(min(seconds, LAST), datetime.timezone.utc)


def figure(height, width=5.6):
    made = Figure(figsize=(width, height), layout="constrained")
    return made, made.subplots()


def bars(rows, label, height=None):
    """Bars of octets, the greatest above."""
    made, axes = figure(height or 0.8 + 0.27 * max(len(rows), 2))
    names = [row[0] for row in rows]
    axes.barh(range(len(rows)), [float(row[1]) for row in rows], color=BLUE, height=0.7)
    axes.set_yticks(range(len(rows)), names)
    axes.invert_yaxis()
    axes.grid(False, axis="y")
    axes.xaxis.set_major_formatter(ticker.EngFormatter(sep=""))
    axes.xaxis.set_major_locator(ticker.MaxNLocator(6, steps=[1, 2, 5, 10]))
    axes.set_xlabel("octets")
    axes.set_ylabel(label)
    return made


def traffic_figure(answers):
    """Bits a second, step by step. Steps without a flow stand at 0."""
    made, axes = figure(2.7, 11.6)
    step = answers.step
    times, rates = [], []
    for at, octets, _, _ in answers.traffic:
        if not times or times[-1] != at:
            if times:
                times.append(times[-1])
                rates.append(0.0)
            times.append(at)
            rates.append(0.0)
        times += [at, at + step]
        rates += [octets * 8 / step] * 2
    if times:
        times.append(times[-1])
        rates.append(0.0)
    moments = [instant(at) for at in times]
    axes.fill_between(moments, rates, color=BLUE, alpha=0.25, linewidth=0)
    axes.plot(moments, rates, color=BLUE, linewidth=1.2)
    locator = dates.AutoDateLocator(minticks=4, maxticks=10)
    axes.xaxis.set_major_locator(locator)
    axes.xaxis.set_major_formatter(dates.ConciseDateFormatter(locator))
    axes.yaxis.set_major_formatter(ticker.EngFormatter(unit="bit/s"))
    axes.set_ylim(bottom=0)
    axes.margins(x=0.01)
    axes.set_xlabel("start of the flow (UTC)")
    axes.set_ylabel(f"mean over {words.span(step)}")
    return made


def sizes_figure(answers):
    """How many flows have so many octets, and how many octets these are, in hundredths of all."""
    made, axes = figure(3.1)
    rows = answers.sizes
    places = range(len(rows))
    for offset, column, color, label in ((-0.2, 3, ORANGE, "of all flows"), (0.2, 1, BLUE, "of all octets")):
        whole = sum(row[column] for row in rows) or 1
        shares = [100 * row[column] / whole for row in rows]
        axes.bar([place + offset for place in places], shares, width=0.38, color=color, label=label)
    axes.set_xticks(places, [words.size_class(row[0]).replace(" to ", "\nto ") for row in rows], fontsize=8)
    axes.grid(False, axis="x")
    axes.yaxis.set_major_formatter(ticker.PercentFormatter())
    axes.set_xlabel("octets of a flow")
    axes.set_ylabel("share")
    if rows:
        axes.legend(frameon=False)
    return made


def image(made, about):
    """A figure as an element of the page."""
    file = io.StringIO()
    made.savefig(file, format="svg", metadata={"Date": None})
    octets = base64.b64encode(file.getvalue().encode()).decode()
    return f'<img alt="{html.escape(about)}" src="data:image/svg+xml;base64,{octets}">'


def table(key, heads, rows):
    """A table, with each amount of it in full."""
    head = "".join(f'<th scope="col">{html.escape(text)}</th>' for text in heads)
    body = ""
    for first, *amounts in rows:
        cells = "".join(f"<td>{amount:,}</td>" for amount in amounts)
        body += f'<tr><th scope="row">{html.escape(first)}</th>{cells}</tr>\n'
    return f'<table id="{key}"><thead><tr>{head}</tr></thead>\n<tbody>\n{body}</tbody></table>'


def totals_list(totals):
    items = [("flows", f"{totals.flows:,}"), ("octets", f"{totals.octets:,}"), ("packets", f"{totals.packets:,}")]
    if totals.first is not None:
        items.append(("first flow (UTC)", words.moment(totals.first // 1000)))
        items.append(("last flow (UTC)", words.moment(totals.last // 1000)))
    items.append(("options records", f"{totals.options:,}"))
    return "<dl>" + "".join(f"<div><dt>{name}</dt><dd>{text}</dd></div>\n" for name, text in items) + "</dl>"


def page(answers, origin):
    """The page of the answers to what was asked of the origin, which is a text."""
    with matplotlib.rc_context(SETTINGS):
        parts = {key: (title, table(key, heads, rows), rows) for key, title, heads, rows in words.tables(answers)}
        pictures = {
            "traffic": image(traffic_figure(answers), "A curve of the traffic over time, in bits a second"),
            "sources": image(bars(parts["sources"][2], "source"), "Bars of the octets that each source sent"),
            "destinations": image(
                bars(parts["destinations"][2], "destination"), "Bars of the octets that each destination was sent"
            ),
            "services": image(bars(parts["services"][2], "service"), "Bars of the octets of each service"),
            "protocols": image(bars(parts["protocols"][2], "protocol"), "Bars of the octets of each protocol"),
            "sizes": image(sizes_figure(answers), "Bars of the share of flows and octets by the size of a flow"),
        }

    def section(key):
        title, rows, _ = parts[key]
        return f"<section><h2>{html.escape(title)}</h2>\n{pictures[key]}\n{rows}</section>"

    title, rows, _ = parts["traffic"]
    traffic = (
        f"<section><h2>{html.escape(title)}</h2>\n{pictures['traffic']}\n"
        f"<details><summary>all steps</summary>{rows}</details></section>"
    )
    pairs = ((("sources",), ("destinations",)), (("services",), ("protocols", "sizes")))
    body = "\n".join(
        '<div class="pair">' + "".join(f'<div>{"".join(map(section, keys))}</div>' for keys in pair) + "</div>"
        for pair in pairs
    )
    return f"""<!DOCTYPE html>
<html lang="en">
<head>
<meta charset="utf-8">
<meta http-equiv="Content-Security-Policy" content="default-src 'none'; img-src data:; style-src 'unsafe-inline'">
<meta name="viewport" content="width=device-width, initial-scale=1">
<title>Flows</title>
<style>{STYLE}</style>
</head>
<body>
<h1>Flows</h1>
<p class="from">from {html.escape(origin)}</p>
{totals_list(answers.totals)}
{traffic}
{body}
</body>
</html>
"""
