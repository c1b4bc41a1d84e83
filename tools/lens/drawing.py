"""The plan as bars on rows, one row for each core, and the colours of priorities.

A plan says which vertices make a step, and not on which core each runs. The rows are a choice of the drawing: a thread stays on
its row while it runs in one step after another, and else takes the first free one."""
from collections import namedtuple
from html import escape

# A run of consecutive steps of one thread on one row: `step` is its first, from 1, `vertex` the number of its first vertex.
Bar = namedtuple("Bar", "path row step length vertex")

COLOURS = ["#4c78a8", "#f58518", "#54a24b", "#e45756", "#72b7b2", "#b279a2", "#eeca3b", "#9d755d", "#ff9da6", "#7f7f7f",
           "#2f5597", "#a05195", "#8c6d31", "#3b8686", "#d67195", "#5c8d2f"]


def priorities(graph):
    """The priorities of a run in the order in which its threads name them, each with a colour."""
    names = list(dict.fromkeys(priority for _, priority, _ in graph.threads))
    return {name: COLOURS[at % len(COLOURS)] for at, name in enumerate(names)}


def bars(steps):
    """The bars of a plan and the number of its rows."""
    done, last, rows = [], {}, 0  # last: for each path that ran in the step before, its place in `done`
    for number, step in enumerate(steps, 1):
        now, free, waiting = {}, set(range(len(step))), []
        for path, vertex in step:
            bar = done[last[path]] if path in last else None
            if bar and bar.row in free and path not in now:
                free.discard(bar.row)
                now[path] = last[path]
                done[last[path]] = bar._replace(length=bar.length + 1)
            else:
                waiting.append((path, vertex))
        for row, (path, vertex) in zip(sorted(free), waiting):
            now[path] = len(done)
            done.append(Bar(path, row, number, 1, vertex))
        last, rows = now, max(rows, len(step))
    return done, rows


def svg(graph, steps, cores, name):
    """The plan as a picture: cores down, steps across, a colour for each priority."""
    colours = priorities(graph)
    of_thread = {path: priority for path, priority, _ in graph.threads}
    drawn, rows = bars(steps)
    wide = min(28.0, max(0.25, 1100.0 / max(1, len(steps))))
    left, top, high = 60, 62, 22
    width, height = left + wide * len(steps) + 20, top + high * rows + 34
    lines = ['<svg xmlns="http://www.w3.org/2000/svg" width="%s" height="%d" viewBox="0 0 %s %d" font-family="sans-serif" font-size="12">'
             % (short(max(width, 420)), height, short(max(width, 420)), height),
             "<title>%s</title>" % escape("%s on %d cores" % (name, cores)),
             '<rect width="100%" height="100%" fill="#ffffff"/>',
             '<text x="10" y="20" font-size="14">%s</text>' % escape("%s: %d cores, %d steps" % (name, cores, len(steps)))]
    across = 10
    for priority, colour in colours.items():
        lines.append('<rect x="%d" y="30" width="12" height="12" fill="%s"/><text x="%d" y="40">%s</text>'
                     % (across, colour, across + 16, priority))
        across += 34 + 8 * len(priority)
    for row in range(rows):
        lines.append('<text x="10" y="%d">core %d</text>' % (top + row * high + 15, row))
    for bar in drawn:
        lines.append(svg_bar(bar, of_thread[bar.path], colours, (left, top, wide, high)))
    for step in ticks(len(steps)):
        x = left + (step - 1) * wide
        lines.append('<path d="M%s %dv4" stroke="#666"/><text x="%s" y="%d" font-size="10" fill="#444">%d</text>'
                     % (short(x), top + rows * high, short(x), top + rows * high + 16, step))
    return "\n".join(lines + ["</svg>", ""])


def svg_bar(bar, priority, colours, measure):
    left, top, wide, high = measure
    x, y, width = left + (bar.step - 1) * wide, top + bar.row * high, bar.length * wide
    told = "%s %s, steps %d to %d" % (bar.path, priority, bar.step, bar.step + bar.length - 1)
    label = ""
    if width > 7 * len(bar.path) + 4:
        label = '<text x="%s" y="%d" font-size="11" fill="%s">%s</text>' % (short(x + 3), y + 15, label_on(colours[priority]), bar.path)
    return ('<g><title>%s</title><rect x="%s" y="%d" width="%s" height="%d" fill="%s" stroke="#fff" stroke-width="%s"/>%s</g>'
            % (told, short(x), y + 1, short(width), high - 2, colours[priority], short(min(1, wide / 4)), label))


def ticks(steps):
    """At most about a dozen round step numbers, the first and the last one among them."""
    apart = next(front * 10 ** zeros for zeros in range(9) for front in (1, 2, 5) if steps <= 12 * front * 10 ** zeros)
    found = [1] + [step for step in range(apart, steps, apart) if step > 1]
    if steps > 1 and steps - found[-1] < apart / 2 and len(found) > 1:
        found.pop()
    return found + [steps] if steps > 1 else found


def label_on(colour):
    """The colour of letters on this colour: black or white."""
    red, green, blue = (int(colour[at:at + 2], 16) for at in (1, 3, 5))
    return "#000000" if red * 299 + green * 587 + blue * 114 > 140000 else "#ffffff"


def short(number):
    return ("%.2f" % number).rstrip("0").rstrip(".")


def dot(graph, name):
    """The cost graph for Graphviz: a box for each thread, its vertices in order."""
    colours = priorities(graph)
    lines = ["digraph %s {" % quoted(name), "  rankdir=TB; compound=true;",
             '  node [shape=circle, width=0.3, fixedsize=false, margin="0.04", fontsize=9, style=filled];']
    for path, priority, steps in graph.threads:
        lines.append('  subgraph "cluster_%s" {' % path)
        lines.append('    label="%s %s"; color="%s"; fontsize=11;' % (path, priority, colours[priority]))
        lines.append('    node [fillcolor="%s", color="%s", fontcolor="%s"];' % (colours[priority], colours[priority], label_on(colours[priority])))
        lines.extend('    "%s:%d" [label="%d"];' % (path, number, number) for number in range(steps))
        if steps > 1:
            lines.append("    %s;" % " -> ".join('"%s:%d"' % (path, number) for number in range(steps)))
        lines.append("  }")
    lines.extend('  "%s" -> "%s" [color="#2f5597", constraint=true];' % edge for edge in graph.spawns)
    lines.extend('  "%s" -> "%s" [color="#c44e52", style=dashed];' % edge for edge in graph.joins)
    return "\n".join(lines + ["}", ""])


def quoted(name):
    return '"%s"' % name.replace("\\", "\\\\").replace('"', '\\"').replace("\n", " ")
