#!/usr/bin/env python3
"""The turning check, written from the paper alone, to compare the product with.

  oracle.py sweep < job.bin     prints what the program sweep prints
  oracle.py sweeps < hex.txt    the same for each line of hexadecimal bytes ('-' for none)
  oracle.py settings LOWEST PITCH NUMBER < job.bin
                                prints what the program settings prints for these three numbers
  oracle.py worked              the paper's worked cases
  oracle.py vectors             writes the tables of job_trials, call_trials and kerb_trials (some minutes)
  oracle.py kerbs               writes the table of kerb_trials alone (seconds)
  oracle.py checks              the oracle's own touching and rounding against a second exact method
  oracle.py groups              the conventions that rows of the tables pin, and on which lines
"""
import pathlib
import sys

sys.dont_write_bytecode = True  # keeps the repository free of compiled files

from turning.kerb_checks import check_kerbs  # noqa: E402
from turning.kerbs import tell_kerb_groups, write_kerbs  # noqa: E402
from turning.settings import numbers_of, settings  # noqa: E402
from turning.sweep import sweep  # noqa: E402
from turning.vectors import tell_groups, write_vectors  # noqa: E402
from turning.worked import check_worked  # noqa: E402

TOOLS = pathlib.Path(__file__).resolve().parent
CRATES = TOOLS.parent / "crates"
TABLES = (CRATES / "job_trials" / "data", CRATES / "call_trials" / "data")
KERBS = (CRATES / "kerb_trials" / "data", TOOLS / "gis_kerbs.txt")


def bytes_of(line):
    text = line.strip()
    return b"" if text == "-" else bytes.fromhex(text)


def sweep_lines():
    for line in sys.stdin:
        sys.stdout.write(sweep(bytes_of(line)))


def main(arguments):
    command = arguments[0] if len(arguments) == 1 else ""
    numbers = numbers_of(arguments[1:])
    if numbers and arguments[0] == "settings":
        sys.stdout.write(settings(sys.stdin.buffer.read(), *numbers))
    elif command == "sweep":
        sys.stdout.write(sweep(sys.stdin.buffer.read()))
    elif command == "sweeps":
        sweep_lines()
    elif command == "worked":
        return 0 if check_worked() else 1
    elif command == "checks":
        return 0 if check_kerbs() else 1
    elif command == "vectors":
        write_vectors(*TABLES)
        write_kerbs(*KERBS)
    elif command == "kerbs":
        write_kerbs(*KERBS)
    elif command == "groups":
        tell_groups(*TABLES)
        tell_kerb_groups(*KERBS)
    else:
        sys.stderr.write(__doc__)
        return 2
    return 0


if __name__ == "__main__":
    sys.exit(main(sys.argv[1:]))
