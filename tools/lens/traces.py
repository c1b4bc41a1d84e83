"""A plan, or the cuts of a run on workers, in the Chrome trace event format, for chrome://tracing, Perfetto and speedscope. One step is
a microsecond."""
import heapq
import json
import math

from . import drawing
from .program import Trouble


def trace(graph, steps, cores, name):
    """The plan: a row for each core."""
    drawn, rows = drawing.bars(steps)
    return as_text(graph, drawn, "%s on %d cores" % (name, cores), ["core %d" % row for row in range(rows)])


def of_cuts(graph, cuts, workers, name):
    """The cuts of a run: a row for each worker. A trace does not tell when a cut ran; each stands as early as its thread, the edges of
    the graph and the other cuts of its worker allow."""
    return as_text(graph, placed(graph, cuts), "%s on %d workers" % (name, workers), ["worker %d" % row for row in range(workers)])


class Row:
    """A worker: when it is free, and its cuts that wait for no other any more, by their places: `now` those that could have started by
    then, and `later` those that can start at a time."""

    def __init__(self):
        self.free, self.now, self.later = 0, [], []

    def add(self, time, place):
        heapq.heappush(self.later, (time, place))

    def start(self):
        """When its next cut starts; infinite where it has none."""
        if self.now:
            return self.free
        return max(self.free, self.later[0][0]) if self.later else math.inf

    def take(self, start):
        """The place of the next cut."""
        while self.later and self.later[0][0] <= start:
            heapq.heappush(self.now, heapq.heappop(self.later)[1])
        return heapq.heappop(self.now)


def placed(graph, cuts):
    """A bar for each cut, behind all that it waits for. The cut that can start first is placed next."""
    left, waiting = waits(graph, cuts)
    rows, times, bars = {cut.worker: Row() for cut in cuts}, [0] * len(cuts), []
    for place, cut in enumerate(cuts):
        if not left[place]:
            rows[cut.worker].add(0, place)
    for _ in cuts:
        row = min(rows.values(), key=Row.start)
        start = row.start()
        if start == math.inf:
            raise Trouble("the cuts of this run wait for each other")
        place = row.take(start)
        cut = cuts[place]
        row.free = start + cut.steps
        bars.append(drawing.Bar(cut.path, cut.worker, start + 1, cut.steps, cut.first))
        for one in waiting[place]:
            times[one] = max(times[one], row.free)
            left[one] -= 1
            if not left[one]:
                rows[cuts[one].worker].add(times[one], one)
    return bars


def waits(graph, cuts):
    """For how many other cuts each cut waits, and which wait for it."""
    holds = {"%s:%d" % (cut.path, cut.first + at): place for place, cut in enumerate(cuts) for at in range(cut.steps)}
    pairs = {(holds["%s:%d" % (cut.path, cut.first - 1)], place) for place, cut in enumerate(cuts) if cut.first}
    pairs |= {(holds[before], holds[after]) for before, after in graph.spawns + graph.joins}
    left, waiting = [0] * len(cuts), [[] for _ in cuts]
    for before, after in sorted(pairs):
        if before != after:
            left[after] += 1
            waiting[before].append(after)
    return left, waiting


def as_text(graph, drawn, title, rows):
    of_thread = {path: priority for path, priority, _ in graph.threads}
    events = [{"ph": "M", "pid": 1, "tid": 0, "name": "process_name", "args": {"name": title}}]
    for number, row in enumerate(rows):
        events.append({"ph": "M", "pid": 1, "tid": number, "name": "thread_name", "args": {"name": row}})
    for bar in drawn:
        priority = of_thread[bar.path]
        events.append({"ph": "X", "pid": 1, "tid": bar.row, "ts": bar.step - 1, "dur": bar.length, "cat": priority,
                       "name": "%s %s" % (bar.path, priority),
                       "args": {"thread": bar.path, "priority": priority, "first vertex": "%s:%d" % (bar.path, bar.vertex),
                                "first step": bar.step, "last step": bar.step + bar.length - 1}})
    where = vertices_of(drawn)
    for number, (kind, edge) in enumerate([("spawn", edge) for edge in graph.spawns] + [("join", edge) for edge in graph.joins]):
        for end, vertex in zip("sf", edge):
            row, step = where[vertex]
            event = {"ph": end, "pid": 1, "tid": row, "ts": step - 1 + (1 if end == "s" else 0) * 0.5, "id": number,
                     "cat": kind, "name": kind}
            events.append(dict(event, bp="e") if end == "f" else event)
    lines = ",\n".join(json.dumps(event) for event in events)
    return '{"displayTimeUnit": "ns", "traceEvents": [\n%s\n]}\n' % lines


def vertices_of(drawn):
    """For each vertex its row and its step."""
    return {"%s:%d" % (bar.path, bar.vertex + at): (bar.row, bar.step + at) for bar in drawn for at in range(bar.length)}
