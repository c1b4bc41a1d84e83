"""The report of the program as a table, as CSV and as JSON; for one number of cores or several side by side."""
import csv
import io
import json

BAR = 30  # cells of the longest bar
COLUMNS = ["cores", "thread", "priority", "steps", "outcome", "work", "span", "response", "bound", "left"]


def aligned(rows, right):
    """Rows of words as lines, the columns in `right` at their right edge."""
    wide = [max(len(row[column]) for row in rows) for column in range(len(rows[0]))]
    lines = []
    for row in rows:
        cells = [one.rjust(wide[at]) if at in right else one.ljust(wide[at]) for at, one in enumerate(row)]
        lines.append("  ".join(cells).rstrip())
    return "".join(line + "\n" for line in lines)


def bar(response, bound, most):
    """The response as `#`, and behind it what is left of the bound as dots; the greatest bound is the longest bar."""
    if most == 0:
        return ""
    whole = max(1, -(-bound * BAR // most))
    full = min(whole, -(-response * BAR // most))
    return "#" * full + "." * (whole - full)


def table(report):
    """One report."""
    most = max((row.bound for row in report.rows), default=0)
    rows = [["thread", "priority", "response", "bound", "left", "response of bound"]]
    for row in report.rows:
        rows.append([row.path, row.priority, str(row.time), str(row.bound), str(row.bound - row.time),
                     bar(row.time, row.bound, most)])
    return "cores %d, steps %d, work %d\n" % (report.cores, report.steps, report.work) + aligned(rows, {2, 3, 4})


def side_by_side(reports):
    """Reports of one run on several numbers of cores: in each column response and bound."""
    rows = [["cores", ""] + [str(one.cores) for one in reports]]
    rows.append(["steps", ""] + [str(one.steps) for one in reports])
    rows.append(["thread", "priority"] + ["response/bound"] * len(reports))
    for lines in zip(*(one.rows for one in reports)):
        rows.append([lines[0].path, lines[0].priority] + ["%d/%d" % (row.time, row.bound) for row in lines])
    return aligned(rows, set(range(2, len(reports) + 2)))


def values(report):
    """The rows of a report, each a list in the order of COLUMNS."""
    return [[report.cores, row.path, row.priority, thread.steps, thread.outcome, row.work, row.span, row.time, row.bound,
             row.bound - row.time] for thread, row in zip(report.threads, report.rows)]


def as_csv(reports):
    text = io.StringIO()
    writer = csv.writer(text, lineterminator="\n")
    writer.writerow(COLUMNS)
    for report in reports:
        writer.writerows(values(report))
    return text.getvalue()


def as_json(reports):
    told = []
    for report in reports:
        threads = [dict(zip(COLUMNS[1:], row[1:]), outputs=thread.outputs)
                   for row, thread in zip(values(report), report.threads)]
        told.append({"cores": report.cores, "steps": report.steps, "work": report.work, "threads": threads})
    return json.dumps(told, indent=1) + "\n"
