"""One HTML file about a run, and the heap that it left: pictures and tables, with no script or style from elsewhere.

The file says itself that nothing may be loaded and that no other script than its own may run, by its hash. Without scripts
the page has all but the sorting, and the first cycles of the table.
"""
import base64
import hashlib
import json
import os

from .heap import KEEPS
from .heap import drawn as heap_drawn
from .image import KINDS
from .paths import FINALISER, LOOSE, STRONG, WEAK
from .svg import NARROW, clean
from .text import count

LEAF = 100  # cycles that the table shows at once
AROUND = 18  # rounds: a cycle over so many at most is shown round by round
COLUMNS = ("cycle", "from", "closed", "ended", "stops", "swept", "had", "freed", "kept", "dead")
MEANS = "From, closed and ended are stops; swept are segments, dead are weak pointers, the others objects. A head sorts by its column."


def own(name):
    """A file that lies beside this one."""
    with open(os.path.join(os.path.dirname(os.path.abspath(__file__)), name), encoding="utf-8") as file:
        return file.read()


def digest(text):
    """How a page names a script or a style that it allows."""
    return "'sha256-" + base64.b64encode(hashlib.sha256(text.encode("utf-8")).digest()).decode("ascii") + "'"


def table(caption, heads, rows, more=""):
    """A table of numbers; the first cell of each row, which names it, is a head. Its caption stands outside of what scrolls."""
    out = [f'<p class="caption">{clean(caption)}</p><div class="table" tabindex="0" role="region" aria-label="{clean(caption)}"><table{more}>']
    out.append("<thead><tr>" + "".join(f'<th scope="col">{clean(head)}</th>' for head in heads) + "</tr></thead><tbody>")
    for row in rows:
        cells = [f"{it:,}" if isinstance(it, int) else clean(it) for it in row]
        out.append(f'<tr><th scope="row">{cells[0]}</th>' + "".join(f"<td>{cell}</td>" for cell in cells[1:]) + "</tr>")
    return "".join(out) + "</tbody></table></div>"


def picture(svg, words, more=""):
    """A picture that can be scrolled without a mouse. Its own style is left out: that of the page does the same, and is the only one allowed."""
    return f'<div class="picture{more}" tabindex="0" role="region" aria-label="{clean(words)}">\n{svg.replace(NARROW, "")}</div>'


def summary(run, view):
    """What there is, in a few lines."""
    rows = [
        ("rounds", f"{run.rounds:,}"), ("cycles", f"{len(run.cycles):,}, of which full: {sum(it.is_full for it in run.cycles):,}"),
        ("commands", f"{sum(sum(row) for row in run.commands):,}, by {count(len(run.commands), 'mutator')}"),
        ("promoted", count(sum(stop.promoted for stop in run.stops), "object")), ("freed", count(sum(it.freed for it in run.cycles), "object")),
        ("kept", f"{count(run.cycles[-1].kept if run.cycles else 0, 'object')}, by the last cycle"),
        ("segments", f"{run.segments:,}, of which at least {min(stop.free for stop in run.stops):,} were free"), ("end", run.end),
    ]
    if view:
        rows.append(("heap left", count(len(view.heap.lines), "object")))
    return "<dl>" + "".join(f"<dt>{clean(name)}</dt><dd>{clean(words)}</dd>" for name, words in rows) + "</dl>"


def longest(run, drawn):
    """The longest cycle round by round, where the picture of the run gathers rounds."""
    cycle = max(run.cycles, key=lambda it: it.stops, default=None)
    if run.rounds <= AROUND + 2 or cycle is None or cycle.is_full:
        return ""
    part = run.part(max(cycle.start, 1), min(cycle.end + 1, run.rounds))
    words = f"The longest cycle, number {cycle.number:,}: over {count(cycle.stops, 'stop')}"
    return f'<h2 id="longest">The longest cycle</h2>\n{picture(drawn(part, words, "longest"), words)}'


def cycle_table(run):
    """The cycles, the longest first: the first of them as a table, and all as numbers for the script."""
    if not run.cycles:
        return "<p>No cycle ended.</p>"
    rows = [[it.number, it.start, it.closed, it.end, it.stops, it.swept, it.had, it.freed, it.kept, it.dead] for it in run.cycles]
    rows.sort(key=lambda row: (-row[4], row[0]))
    shown = table(f"Cycles, the longest first. {MEANS}", COLUMNS, rows[:LEAF], f' id="cycles" data-leaf="{LEAF}"')
    for at, head in enumerate(COLUMNS):
        sort = "descending" if at == 4 else "none"
        shown = shown.replace(f'<th scope="col">{head}</th>', f'<th scope="col" aria-sort="{sort}">{head}</th>', 1)
    leaf = f'<p class="turn"><span id="leaf" role="status">1 to {min(LEAF, len(rows)):,} of {len(rows):,}</span></p>'
    return f'{shown}\n{leaf}\n<script type="application/json" id="cycles-data">{json.dumps(rows, separators=(",", ":"))}</script>'


def mutator_table(run):
    """What each mutator did."""
    rows = [[f"mutator {at}", sum(row), sum(map(bool, row)), max(row, default=0)] for at, row in enumerate(run.commands)]
    return table("Commands by mutator", ("mutator", "commands", "rounds with some", "most in a round"), rows)


def heap_table(view):
    """Objects by kind and by what keeps them."""
    kept = (STRONG, FINALISER, WEAK, LOOSE)
    heads = ("kind", "kept by registers and g", *(KEEPS[it] for it in kept[1:]), "in all")
    counts = {(kind, it): 0 for kind in KINDS for it in kept}
    for name in view.heap.lines:
        counts[view.heap.kind(name), view.keeper[name]] += 1
    rows = [[kind] + [counts[kind, it] for it in kept] + [sum(counts[kind, it] for it in kept)] for kind in KINDS]
    return table("Objects by kind", heads, [row for row in rows if row[-1]])


def written(run, view, title, drawn):
    """The text of the page; `drawn` draws a run or a part of one."""
    style, script = own("page.css"), own("page.js")
    policy = f"default-src 'none'; style-src {digest(style)}; script-src {digest(script)}; base-uri 'none'; form-action 'none'"
    long = longest(run, drawn)
    parts = [("run", "The run"), ("longest", "The longest cycle"), ("table", "Cycles"), ("mutators", "Mutators"), ("heap", "The heap")]
    there = {"run", "table", "mutators"} | ({"longest"} if long else set()) | ({"heap"} if view else set())
    links = "".join(f'<a href="#{name}">{words}</a>' for name, words in parts if name in there)
    body = [
        f"<header><h1>{clean(title)}</h1>{summary(run, view)}<nav aria-label='Parts'>{links}</nav></header>", "<main>",
        f'<h2 id="run">The run</h2>\n{picture(drawn(run, title, "run"), "Picture of the run")}', long,
        f'<h2 id="table">Cycles</h2>\n{cycle_table(run)}', f'<h2 id="mutators">Mutators</h2>\n{mutator_table(run)}',
    ]
    if view:
        heading = f"The heap that is left{f', and what keeps {view.name}' if view.name else ''}"
        body.append(f'<h2 id="heap">The heap</h2>\n{picture(heap_drawn(view, heading), "Picture of the heap", " tall")}\n{heap_table(view)}')
    return "\n".join([
        "<!DOCTYPE html>", '<html lang="en"><head><meta charset="utf-8">', f'<meta http-equiv="Content-Security-Policy" content="{policy}">',
        '<meta name="viewport" content="width=device-width, initial-scale=1">', f"<title>{clean(title)}</title>", f"<style>{style}</style></head><body>",
        *body, "</main>", f"<script>{script}</script>", "</body></html>", "",
    ])
