"""Pictures of a run, of a heap and of a refused trace, and a page that holds them. Python 3 and its library alone.

Readers, each strict to its format (docs/FORMATS.md, docs/GUIDE.md), and telling the first bad line (`text.BadInput`):

- `report`: the report of `nmgc run`, as a `Run`. It is read line by line, and of names and values nothing is kept.
- `image`: the image of a heap, as a `Heap`; `paths`: levels from the roots, shortest paths, and what keeps an object.
- `judge`: a trace, up to the line that can't happen; `trace`: the watch of format 2, `core`: that of the first one, with its
  marker; `world`: the heap that is never collected, which both have.

Pictures, each a text of SVG made on a `svg.Sheet`:

- `rounds`: a run of few rounds, each with its stop; `columns`: a long one, whose rounds are gathered.
- `cut`: which objects of a heap are shown; `layout`: where; `heap`: the picture; `dot`: the same for Graphviz.
- `worlds`: the snapshot and the heap at the refused line, side by side.
- `page`: one HTML file with pictures and tables; its style and its script are `page.css` and `page.js`.

`commands` has what tools/picture.py and tools/page do with their words, `documents` makes the stored pictures again, and
`notice` says what a tool waits for. Nothing that is drawn is trusted: whatever comes from a file or a title is escaped as
it is put on the sheet, and not before.
"""
