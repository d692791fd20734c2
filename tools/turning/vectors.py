"""Writes the tables of vectors and tells how often each number occurs in them."""

from collections import Counter

from .call_bodies import BODY_GROUPS
from .call_long_lists import LIST_GROUPS, long_list_kinds
from .call_long_records import RECORD_GROUPS
from .call_records import lays, writes
from .call_settings import list_kinds, lists
from .call_stations import walk_calls
from .call_turns import path_turns, unit_turns
from .call_widest import WIDEST_GROUPS
from .chance import Chance
from .convention_jobs import JOB_GROUPS, group_bytes
from .conventions import CALL_GROUPS
from .jobs import all_jobs
from .long_jobs import LONG_JOB_GROUPS, long_walks
from .tables import job_line
from .worked import rigs_to_try

OPERATIONS = {"1": "place", "2": "step", "3": "widest", "4": "write", "5": "lay", "6": "path turn", "7": "unit turn",
              "8": "list"}


def call_lines():
    lines = walk_calls(Chance(2002)) + writes(Chance(52)) + lays(Chance(64))
    return list(dict.fromkeys(lines + path_turns(Chance(6)) + unit_turns(Chance(7))))


def list_lines():
    """Calls of the list of settings, which stand after all others so that no older row moves."""
    return list(dict.fromkeys(lists(Chance(8))))


def job_groups():
    """The rows of each named convention: jobs by their lines."""
    return [(name, [job_line(data) for data in group_bytes(jobs())]) for name, jobs in JOB_GROUPS]


def call_groups():
    return [(name, calls()) for name, calls in CALL_GROUPS]


def long_job_groups():
    """The rows of long jobs, which stand after all others so that no older row moves."""
    return [(name, [job_line(data) for data in jobs()]) for name, jobs in LONG_JOB_GROUPS]


def long_call_groups():
    """Likewise the calls that bodies, marks of 32 bits and the widest's record brought."""
    return [(name, calls()) for name, calls in BODY_GROUPS + WIDEST_GROUPS + RECORD_GROUPS + LIST_GROUPS]


def grouped(lines, groups):
    """The table: the rows of the groups come last, group after group, none twice."""
    rows = [row for _, group in groups for row in group]
    return [line for line in lines if line not in set(rows)] + list(dict.fromkeys(rows))


def appended(table, groups):
    """The table with the rows of these groups behind it, none twice."""
    return list(dict.fromkeys(table + [row for _, group in groups for row in group]))


def group_places(groups, table):
    """Each group with its rows and the first and last line of the table that they stand on."""
    line_of = {line: k + 1 for k, line in enumerate(table)}
    for name, rows in groups:
        lines = [line_of[row] for row in rows]
        yield name, len(set(rows)), min(lines), max(lines)


def tell_groups(job_folder, call_folder):
    """Prints the conventions that the tables pin, and where their rows stand."""
    job_rows, call_rows = job_groups() + long_job_groups(), call_groups() + long_call_groups()
    for folder, name, groups in ((job_folder, "jobs.txt", job_rows), (call_folder, "calls.txt", call_rows)):
        table = (folder / name).read_text(encoding="ascii").splitlines()
        for group, rows, first, last in group_places(groups, table):
            print("%-9s lines %4d to %4d, %2d rows: %s" % (name, first, last, rows, group))


def job_kind(line):
    text = line.split(" ", 1)[1]
    words = text.split(" ")
    if words[0] != "refused":
        return "finished, widest none" if "none" in text else "finished"
    return "refused " + " ".join(words[1:4:2] if "unit" in text else words[1:2])


def number_order(item):
    return [int(word) if word.isdigit() else -1 for word in item[0].split()], item[0]


def told(kinds):
    return ", ".join("%s: %d" % item for item in sorted(Counter(kinds).items(), key=number_order))


def write_file(path, lines):
    with open(path, "w", encoding="ascii", newline="\n") as out:
        out.write("".join(line + "\n" for line in lines))


def job_table():
    jobs = grouped([job_line(data) for data in all_jobs()], job_groups())
    return appended(jobs + [job_line(data) for data in long_walks()], long_job_groups())


def call_table():
    return appended(grouped(call_lines(), call_groups()) + list_lines(), long_call_groups())


def write_vectors(job_folder, call_folder):
    jobs, calls = job_table(), call_table()
    write_file(job_folder / "rigs.txt", [job_line(data) for data in rigs_to_try()])
    write_file(job_folder / "jobs.txt", jobs)
    write_file(call_folder / "calls.txt", calls)
    print("jobs.txt: %d lines. %s" % (len(jobs), told(map(job_kind, jobs))))
    print("calls.txt: %d lines, by number (0: done)" % len(calls))
    for operation, name in OPERATIONS.items():
        numbers = [line.split(" = ")[1].split(" ")[0] for line in calls if line.startswith(operation + " ")]
        print("  %s %s, %d lines. %s" % (operation, name, len(numbers), told(numbers)))
    print("  lists by what they show. %s" % told(list_kinds(Chance(8)) + long_list_kinds()))
