"""One page, without network, that shows a plan, its threads with their bounds, and the cost graph where it is small."""
import json
import os
from html import escape

from . import drawing

MOST_VERTICES = 300
APART, ROW, LEFT, TOP = 34, 40, 90, 26  # of the drawn graph


def page(report, graph, steps, name):
    """The page as text."""
    colours = drawing.priorities(graph)
    names = list(colours)
    number = {path: at for at, (path, _, _) in enumerate(graph.threads)}
    drawn, rows = drawing.bars(steps)
    threads = [[row.path, names.index(row.priority), thread.steps, row.time, row.bound, row.work, row.span, thread.outcome]
               for thread, row in zip(report.threads, report.rows)]
    data = {"name": name, "cores": report.cores, "steps": report.steps, "work": report.work, "rows": rows,
            "priorities": [[one, colour, drawing.label_on(colour)] for one, colour in colours.items()], "threads": threads,
            "bars": [[number[bar.path], bar.row, bar.step, bar.length, bar.vertex] for bar in drawn]}
    with open(os.path.join(os.path.dirname(__file__), "view.html"), encoding="utf-8") as file:
        parts = {"TITLE": escape(name), "GRAPH": graph_part(graph, steps, colours), "DATA": in_script(data)}
        return filled(file.read(), parts)


def filled(text, parts):
    """The text with each part at its mark; no mark is looked for in a part."""
    pieces = text.split("@@")
    return "".join(parts[piece] if at % 2 else piece for at, piece in enumerate(pieces))


def in_script(data):
    """JSON that may stand inside a script."""
    return json.dumps(data, separators=(",", ":")).replace("<", "\\u003c").replace(">", "\\u003e").replace("&", "\\u0026")


def graph_part(graph, steps, colours):
    """The cost graph as a picture: a row for each thread, each vertex at its step of the plan."""
    vertices = sum(count for _, _, count in graph.threads)
    if vertices > MOST_VERTICES:
        return "<p>The graph has %d vertices; up to %d are drawn here. <code>lens dot</code> writes it for Graphviz.</p>" % (
            vertices, MOST_VERTICES)
    row = {path: at for at, (path, _, _) in enumerate(graph.threads)}
    at = {"%s:%d" % (path, number): (LEFT + APART * (step - 1) + 12, TOP + ROW * row[path])
          for step, line in enumerate(steps, 1) for path, number in line}
    width, height = LEFT + APART * len(steps) + 12, TOP + ROW * len(graph.threads)
    lines = ['<svg xmlns="http://www.w3.org/2000/svg" width="%d" height="%d" role="img" aria-label="cost graph">' % (width, height)]
    for path, priority, count in graph.threads:
        for number in range(count - 1):
            (x, y), (next_x, _) = at["%s:%d" % (path, number)], at["%s:%d" % (path, number + 1)]
            lines.append('<path class="next" d="M%d %dH%d"/>' % (x, y, next_x))
    for kind, edges in (("spawn", graph.spawns), ("join", graph.joins)):
        for start, end in edges:
            (x, y), (to_x, to_y) = at[start], at[end]
            lines.append('<path class="%s" d="M%d %dC%d %d %d %d %d %d"><title>%s %s to %s</title></path>' % (
                kind, x, y, x + APART // 2, y, to_x - APART // 2, to_y, to_x, to_y, kind, start, end))
    for path, priority, count in graph.threads:
        y = TOP + ROW * row[path]
        lines.append('<text class="name" x="4" y="%d">%s %s</text>' % (y + 4, shortened(path), priority[:8]))
        for number in range(count):
            x, _ = at["%s:%d" % (path, number)]
            lines.append('<g><title>%s:%d %s</title><circle cx="%d" cy="%d" r="11" fill="%s"/><text x="%d" y="%d" '
                         'text-anchor="middle" fill="%s">%d</text></g>' % (path, number, priority, x, y, colours[priority], x, y + 4,
                                                                          drawing.label_on(colours[priority]), number))
    return '<div class="wide" tabindex="0">%s</div>' % "".join(lines + ["</svg>"])


def shortened(path):
    return path if len(path) <= 8 else ".." + path[-6:]
