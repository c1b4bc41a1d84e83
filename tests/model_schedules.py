"""What docs/SCHEDULES.md says, in Python: cost graphs, schedules, flaws, plans, responses; and their texts of
docs/FORMATS.md. The headings below are theirs. A vertex is (path, number), so Python's order of tuples is that of
vertices by path and number; a priority is its number in an Order of model_types.py."""
import heapq
import re

from model_steps import path_text


# ---------------------------------------------------------------- Cost graphs
class Graph:
    def __init__(self, records, order):
        self.order, self.threads = order, [(r.path, order.number[r.priority], len(r.events)) for r in records]
        self.priority, self.parents, self.spawns, self.joins = {}, {}, [], []
        length = {path: steps for path, _, steps in self.threads}
        for path, priority, steps in self.threads:
            for i in range(steps):
                self.priority[path, i] = priority
                self.parents[path, i] = [(path, i - 1)] if i else []
        for record in records:
            children = 0
            for i, event in enumerate(record.events):
                if event[0] == "Spawn":
                    self.spawns.append(((record.path, i), (record.path + (children,), 0)))
                    children += 1
                elif event[0] == "Join":
                    self.joins.append(((event[1], length[event[1]] - 1), (record.path, i)))
        self.children = {v: [] for v in self.priority}
        for u, v in self.spawns + self.joins:
            self.parents[v].append(u)
        for v, parents in self.parents.items():
            for u in parents:
                self.children[u].append(v)


def from_one(edges, v):
    """The vertices to which a path of these edges leads from v, v included."""
    reached, found = {v}, [v]
    for one in found:                               # `found` grows meanwhile
        for other in edges[one]:
            if other not in reached:
                reached.add(other)
                found.append(other)
    return reached


# ---------------------------------------------------------------- Graph text
def vertex_text(v):
    return "%s:%d" % (path_text(v[0]), v[1])


def graph_text(graph):
    lines = ["thread %s %s %d" % (path_text(path), graph.order.names[p], steps) for path, p, steps in graph.threads]
    lines += ["spawn %s %s" % (vertex_text(u), vertex_text(v)) for u, v in sorted(graph.spawns, key=lambda edge: edge[1])]
    return lines + ["join %s %s" % (vertex_text(u), vertex_text(v)) for u, v in sorted(graph.joins, key=lambda edge: edge[1])]


# ---------------------------------------------------------------- Schedules
def lanes_of(order):
    lanes, remain = {}, list(range(len(order.names)))
    while remain:
        first = next(p for p in remain if not any(order.below(p, q) for q in remain))
        lanes[first] = len(lanes)
        remain.remove(first)
    return lanes


def plan(graph, cores):
    """The canonical plan, as the list of its steps."""
    lanes, waits = lanes_of(graph.order), {v: len(parents) for v, parents in graph.parents.items()}

    def ranked(v):
        return lanes[graph.priority[v]], v
    ready = [ranked(v) for v in waits if waits[v] == 0]
    heapq.heapify(ready)
    steps = []
    while ready:
        steps.append([heapq.heappop(ready)[1] for _ in range(min(cores, len(ready)))])
        for v in steps[-1]:
            for child in graph.children[v]:
                waits[child] -= 1
                if waits[child] == 0:
                    heapq.heappush(ready, ranked(child))
    return steps


def flaw(graph, cores, schedule):
    """The flaw that decides, as the end of its line, or None where the schedule is prompt."""
    done, order = set(), graph.order
    ready = {p: set() for p in range(len(order.names))}
    ready[graph.priority[(0,), 0]].add(((0,), 0))
    for i, step in enumerate(schedule, 1):
        if not step:
            return "%d empty" % i
        if len(step) > cores:
            return "%d wide" % i
        for n, v in enumerate(step):
            if v in done or v in step[:n]:
                return "%d twice %s" % (i, vertex_text(v))
        for v in step:
            if v not in ready[graph.priority[v]]:
                return "%d not ready %s" % (i, vertex_text(v))
        for v in step:
            ready[graph.priority[v]].remove(v)
        left_out = [p for p in ready if ready[p]]
        if len(step) < cores and left_out:
            return "%d idle %s" % (i, vertex_text(min(min(ready[p]) for p in left_out)))
        for v in step:
            higher = [min(ready[p]) for p in left_out if order.below(graph.priority[v], p)]
            if higher:
                return "%d inverted %s %s" % (i, vertex_text(v), vertex_text(min(higher)))
        done.update(step)
        for v in step:
            for child in graph.children[v]:
                if done.issuperset(graph.parents[child]):
                    ready[graph.priority[child]].add(child)
    unfinished = [v for v in graph.priority if v not in done]
    return "%d unfinished %s" % (len(schedule) + 1, vertex_text(min(unfinished))) if unfinished else None


# ---------------------------------------------------------------- Plan text
def plan_text(steps):
    return [" ".join(map(vertex_text, step)) for step in steps]


# ---------------------------------------------------------------- Schedule
NUMBER = rb"(?:0|[1-9][0-9]{0,9})"
PATH = rb"0(?:\.%s){0,31}" % NUMBER
VERTEX = re.compile(rb"(%s):(%s)" % (PATH, NUMBER))


def path_of(text):
    """The path that a text of this form is, or None where a number is too large."""
    parts = tuple(int(part) for part in text.split(b"."))
    return parts if all(part < 2 ** 32 for part in parts) else None


def vertex_of(text):
    found = VERTEX.fullmatch(text)
    path = found and path_of(found.group(1))
    return (path, int(found.group(2))) if path and int(found.group(2)) < 2 ** 32 else None


def read_schedule(lines, graph):
    """The steps, or the end of the line of refusal."""
    steps = []
    for i, line in enumerate(lines, 1):
        step = [vertex_of(word) for word in re.split(rb"[ \t\r]+", line) if word]
        if None in step:
            return None, "bad text at line %d" % i
        if any(v not in graph.priority for v in step):
            return None, "unknown vertex at line %d" % i
        steps.append(step)
    return steps, None


# ---------------------------------------------------------------- Response, work and span
def responses(graph, schedule):
    """For each thread its path and priority, response, competitors' work and span, from the definitions."""
    step_of = {v: i for i, step in enumerate(schedule, 1) for v in step}
    in_order = [v for step in schedule for v in step]
    found = []
    for path, r, steps in graph.threads:
        s, t = (path, 0), (path, steps - 1)
        ready = max([step_of[u] for u in graph.parents[s]], default=0) + 1
        before, after = from_one(graph.parents, s) - {s}, from_one(graph.children, t) - {t}
        work = sum(not graph.order.below(p, r) for v, p in graph.priority.items() if v not in before and v not in after)
        longest = {}                                # to each vertex, of the paths without a proper ancestor of s
        for v in in_order:
            if v not in before:
                longest[v] = 1 + max([longest[u] for u in graph.parents[v] if u in longest], default=0)
        found.append((path, r, step_of[t] - ready + 1, work, longest[t]))
    return found


# ---------------------------------------------------------------- Response lines
def response_text(graph, schedule, cores):
    lines = ["cores %d" % cores, "steps %d" % len(schedule)]
    for path, r, time, work, span in responses(graph, schedule):
        bound = (work + (cores - 1) * span) // cores
        assert cores * time <= work + (cores - 1) * span
        lines.append("response %s %s time %d work %d span %d bound %d" % (
            path_text(path), graph.order.names[r], time, work, span, bound))
    return lines
