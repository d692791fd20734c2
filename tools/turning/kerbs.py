"""The table of kerbs: its groups of rows, and how often each number occurs in them."""

from .kerb_jobs import JOB_GROUPS_OF_KERBS
from .kerb_moves import MOVE_GROUPS
from .kerb_reads import READ_GROUPS, read
from .kerb_refusals import REFUSAL_GROUPS
from .kerb_walks import WALK_GROUPS
from .vectors import group_places, told, write_file

KERB_OPERATIONS = {"1": "read", "2": "report", "3": "report of a job", "4": "report of a job and a geometry"}


def surveyed(stored):
    """A row for each geometry of a GIS writer, which stand in the file as name and hexadecimal bytes."""
    lines = [line for line in stored.read_text(encoding="ascii").splitlines() if not line.startswith("#")]
    return [read(bytes.fromhex(line.split(" ")[1]), 12, 12) for line in lines]


def kerb_groups(stored):
    reads, reports = READ_GROUPS, MOVE_GROUPS + WALK_GROUPS + REFUSAL_GROUPS + JOB_GROUPS_OF_KERBS
    groups = [(name, rows()) for name, rows in reads] + [("geometries of a GIS writer", surveyed(stored))]
    return groups + [(name, rows()) for name, rows in reports]


def kerb_table(stored):
    return list(dict.fromkeys(row for _, rows in kerb_groups(stored) for row in rows))


def write_kerbs(folder, stored):
    kerbs = kerb_table(stored)
    write_file(folder / "kerbs.txt", kerbs)
    print("kerbs.txt: %d lines, by number (0: done)" % len(kerbs))
    for operation, name in KERB_OPERATIONS.items():
        numbers = [line.split(" = ")[1].split(" ")[0] for line in kerbs if line.startswith(operation + " ")]
        print("  %s %s, %d lines. %s" % (operation, name, len(numbers), told(numbers)))


def tell_kerb_groups(folder, stored):
    table = (folder / "kerbs.txt").read_text(encoding="ascii").splitlines()
    for group, rows, first, last in group_places(kerb_groups(stored), table):
        print("%-9s lines %4d to %4d, %2d rows: %s" % ("kerbs.txt", first, last, rows, group))
