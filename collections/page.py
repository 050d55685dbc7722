"""Writes a table as a page that a browser shows without a network: filters, sorting, a plot, and lines that unfold."""
import html
import json
from typing import Dict, List, NamedTuple, Sequence, Tuple

STYLE = """
body { font: 14px/1.4 system-ui, sans-serif; margin: 1.5em; color: #222; }
h1 { font-size: 1.3em; }
table { border-collapse: collapse; }
th, td { padding: 2px 8px; border-bottom: 1px solid #ddd; text-align: left; vertical-align: top; }
th { position: sticky; top: 0; background: #f4f4f4; cursor: pointer; white-space: nowrap; }
td.number { text-align: right; font-variant-numeric: tabular-nums; }
tr.bad td { background: #fdecea; }
tr.open td { background: #fff8e1; }
pre { margin: 0; white-space: pre-wrap; }
.filters { margin: 1em 0; }
.filters label { margin-right: 1em; }
svg { border: 1px solid #ddd; margin: 1em 0; }
"""

SCRIPT = """
const table = document.getElementById('rows'), body = table.tBodies[0], count = document.getElementById('count');
let order = null, down = false;
const choices = data.columns.map(() => '');
let words = '';
function shown() {
  let found = data.rows.filter(row => row.cells.every((cell, i) => !choices[i] || cell === choices[i]) &&
    (!words || row.cells.some(cell => cell.toLowerCase().includes(words))));
  if (order !== null) {
    const number = data.columns[order].number;
    const key = row => number ? (row.cells[order] === '-' ? -1 : Number(row.cells[order])) : row.cells[order];
    found = found.slice().sort((a, b) => { const x = key(a), y = key(b); return (x < y ? -1 : x > y ? 1 : 0) * (down ? -1 : 1); });
  }
  return found;
}
function draw() {
  const found = shown();
  body.textContent = '';
  for (const row of found) {
    const line = body.insertRow();
    line.className = row.kind;
    row.cells.forEach((cell, i) => {
      const place = line.insertCell();
      if (data.columns[i].number) place.className = 'number';
      if (i === 0 && row.lines.length) {
        const more = document.createElement('details'), head = document.createElement('summary'), text = document.createElement('pre');
        head.textContent = cell;
        text.textContent = row.lines.join('\\n');
        more.append(head, text);
        place.append(more);
      } else place.textContent = cell;
    });
  }
  count.textContent = found.length + ' of ' + data.rows.length;
  plot(found);
}
function plot(found) {
  const svg = document.getElementById('plot'), size = 360, edge = 45, [x, y] = data.axes;
  const points = found.map(row => [Number(row.cells[x]), Number(row.cells[y]), row]).filter(point => point[0] > 0 && point[1] > 0);
  points.sort((a, b) => a[2].kind === '' && b[2].kind !== '' ? -1 : a[2].kind !== '' && b[2].kind === '' ? 1 : 0);
  svg.textContent = '';
  if (!points.length) { svg.style.display = 'none'; return; }
  svg.style.display = '';
  const all = points.flatMap(point => [point[0], point[1]]);
  const low = Math.floor(Math.log10(Math.min(...all))), high = Math.max(low + 1, Math.ceil(Math.log10(Math.max(...all))));
  const at = value => (Math.log10(value) - low) / (high - low) * (size - 2 * edge) + edge;
  const add = (name, attributes, text) => {
    const part = document.createElementNS('http://www.w3.org/2000/svg', name);
    for (const key in attributes) part.setAttribute(key, attributes[key]);
    if (text) part.textContent = text;
    svg.append(part);
    return part;
  };
  add('line', { x1: edge, y1: size - edge, x2: size - edge, y2: edge, stroke: '#bbb' });
  for (let power = low; power <= high; power++) {
    const place = at(10 ** power);
    add('text', { x: place, y: size - edge + 15, 'font-size': 10, 'text-anchor': 'middle' }, String(10 ** power));
    add('text', { x: edge - 5, y: size - place + 3, 'font-size': 10, 'text-anchor': 'end' }, String(10 ** power));
  }
  add('text', { x: size / 2, y: size - 8, 'font-size': 12, 'text-anchor': 'middle' }, data.columns[x].name);
  add('text', { x: 12, y: size / 2, 'font-size': 12, 'text-anchor': 'middle', transform: 'rotate(-90 12 ' + size / 2 + ')' }, data.columns[y].name);
  for (const [a, b, row] of points) {
    const colour = row.kind === 'bad' ? '#c62828' : row.kind === 'open' ? '#ef6c00' : '#1565c0';
    const point = add('circle', { cx: at(a), cy: size - at(b), r: 3, fill: colour, 'fill-opacity': 0.6 });
    const title = document.createElementNS('http://www.w3.org/2000/svg', 'title');
    title.textContent = row.cells[0];
    point.append(title);
  }
}
data.columns.forEach((column, i) => {
  table.tHead.rows[0].cells[i].onclick = () => { down = order === i && !down; order = i; draw(); };
  if (column.filter) document.getElementById('filter' + i).onchange = event => { choices[i] = event.target.value; draw(); };
});
document.getElementById('words').oninput = event => { words = event.target.value.toLowerCase(); draw(); };
draw();
"""


class Column(NamedTuple):
    """A column of the table."""

    name: str
    number: bool = False
    filter: bool = False
    """whether a reader may choose one of its words"""


class Line(NamedTuple):
    """A row of the table."""

    cells: List[str]
    lines: List[str]
    """what unfolds"""


def kind_of(cells: Sequence[str]) -> str:
    """How a row is marked: `bad` where something is known to be wrong, `open` where something is not decided."""
    if any(cell in ("invalid", "sat refuted") or cell.endswith("is wrong") for cell in cells):
        return "bad"
    return "open" if any(cell in ("not decided", "not strict") or cell.startswith("open: ") for cell in cells) else ""


def filters_of(columns: Sequence[Column], rows: Sequence[Line]) -> str:
    """The choices above the table."""
    told = []
    for place, column in enumerate(columns):
        if column.filter:
            words = sorted({row.cells[place] for row in rows})
            options = "".join(f"<option>{html.escape(word)}</option>" for word in words)
            told.append(f'<label>{html.escape(column.name)} <select id="filter{place}"><option value="">all</option>{options}</select></label>')
    return "".join(told)


def counts_of(columns: Sequence[Column], rows: Sequence[Line]) -> str:
    """How many rows there are of each verdict, or of each remark."""
    names = [column.name for column in columns]
    place = names.index("verdict" if "verdict" in names else "remark")
    counts: Dict[str, int] = {}
    for row in rows:
        counts[row.cells[place] or "no remark"] = counts.get(row.cells[place] or "no remark", 0) + 1
    return ", ".join(f"{counts[word]} {word}" for word in sorted(counts))


def page_of(title: str, columns: Sequence[Column], rows: Sequence[Line], axes: Tuple[str, str]) -> str:
    """The page, of one file. `axes` are the columns of the plot."""
    names = [column.name for column in columns]
    data = {
        "columns": [column._asdict() for column in columns],
        "rows": [{"cells": row.cells, "lines": row.lines, "kind": kind_of(row.cells)} for row in rows],
        "axes": [names.index(axis) for axis in axes],
    }
    told = json.dumps(data).replace("<", "\\u003c")
    heads = "".join(f"<th>{html.escape(name)}</th>" for name in names)
    return f"""<!doctype html>
<html lang="en"><meta charset="utf-8"><title>{html.escape(title)}</title><style>{STYLE}</style>
<h1>{html.escape(title)}</h1>
<p>{html.escape(counts_of(columns, rows))}. Shown: <span id="count"></span>.</p>
<p class="filters">{filters_of(columns, rows)}<label>with <input id="words" placeholder="words"></label></p>
<svg id="plot" width="360" height="360"></svg>
<table id="rows"><thead><tr>{heads}</tr></thead><tbody></tbody></table>
<script>const data = {told};{SCRIPT}</script>
</html>
"""
