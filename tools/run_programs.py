#!/usr/bin/env python3
"""Runs the built programs and compares both streams of each with what is expected.

  run_programs.py [FOLDER]     FOLDER holds the programs; target/bin where none is given

Every program is run in a copy of its data/ on its stdin: standard output must be its file stdout, standard
error empty. `sweep` is then fed every job of the tables, the longest of them padded to several lengths and in
pieces, and inputs and outputs that fail; `settings` likewise, with lists and with wrong arguments; `kerb` with jobs,
geometries and files that cannot be opened or read. No contract can say what a program reads and writes.
"""
import concurrent.futures
import os
import pathlib
import re
import shutil
import subprocess
import sys
import tempfile
import time
import tty

sys.dont_write_bytecode = True  # keeps the repository free of compiled files

from turning.kerb_inputs import long_files, printed, table_inputs  # noqa: E402
from turning.long_settings_jobs import long_rows  # noqa: E402
from turning.record import Refused, read_job  # noqa: E402
from turning.settings import numbers_of, settings  # noqa: E402
from turning.settings_jobs import given_rows  # noqa: E402
from turning.sweep import sweep  # noqa: E402
from turning.worked import job_bytes  # noqa: E402

ROOT = pathlib.Path(__file__).resolve().parent.parent
JOB_LINE = re.compile(r"(-|(?:[0-9a-f]{2})+) ((?:steps|refused) .*/)")
LENGTHS = [1_023, 1_024, 1_025, 100_000]
UNREAD = ": standard input cannot be read\n"
UNWRITTEN = ": standard output cannot be written\n"
EXPECTED = b"settings: expected three numbers up to 4294967295: lowest wheelbase, pitch, number of settings\n"
SECONDS = 900

SOME_SETTINGS = ["50000", "30000", "6"]
NO_NUMBERS = ["", " ", "-1", "+5", "12a", " 5", "5 ", "5\n", "1e4", "0x10", "5_000", "five", b"\xd9\xa5", b"\xff"]
TOO_LARGE = ["4294967296", "4294972296", "18446744073709556616", "99999999999999999999999", "9" * 1_000]
ALLOWED = [["00062000", "007", "03"], ["00042000", "007", "03"], ["42000".zfill(200), "1".zfill(200), "32".zfill(200)],
           ["0" * 200, "1", "1"], ["42000", "1", "0" * 200], ["5000", "4294967295", "1"], ["5000", "0004294967295", "2"],
           ["4294967295"] * 3, ["0", "0", "0"]]


def ended(process):
    """Both streams, and the status if it is not 0, which a program's always is."""
    out, err = process.communicate(timeout=SECONDS)
    return out, err if process.returncode == 0 else err + b"status %d\n" % process.returncode


def started(command, **streams):
    return subprocess.Popen(command, **{"stdout": subprocess.PIPE, "stderr": subprocess.PIPE, **streams})


def from_file(command, data):
    with tempfile.TemporaryFile() as file:
        file.write(data)
        file.seek(0)
        return ended(started(command, stdin=file))


def from_pipe(command, data, piece):
    """So many bytes at a time, so that one read does not get them all."""
    process = started(command, stdin=subprocess.PIPE)
    try:
        for at in range(0, len(data), piece):
            process.stdin.write(data[at : at + piece])
            process.stdin.flush()
            time.sleep(0.001)
    except BrokenPipeError:
        pass  # the program has read as much as it wants
    return ended(process)


def broken_off(command, data):
    """The bytes, and then a read that fails: a terminal whose other side is closed."""
    ours, theirs = os.openpty()
    tty.setraw(theirs)
    process = started(command, stdin=ours)
    os.write(theirs, data)
    os.close(theirs)
    os.close(ours)
    return ended(process)


def by_shell(command, redirection):
    return ended(started(["sh", "-c", 'exec "$0" "$@" ' + redirection] + command, stdin=subprocess.DEVNULL))


def table_jobs():
    """The jobs of every table below crates/, with the text that each must print."""
    jobs = {}
    for table in sorted(ROOT.glob("crates/*/data/*.txt")):
        lines = table.read_text("ascii").splitlines()
        if not lines or not JOB_LINE.fullmatch(lines[0]):
            continue
        for line in lines:
            match = JOB_LINE.fullmatch(line)
            if not match:
                raise SystemExit("%s: this is no job: %s" % (table, line))
            data = b"" if match[1] == "-" else bytes.fromhex(match[1])
            jobs[data] = match[2].replace("/", "\n").encode()
    return jobs


def steps_of(text):
    """The steps of a job that is walked to the end, none where it is refused."""
    return int(text.split()[1]) if text.startswith(b"steps") else None


def longest_of(jobs):
    """The longest record of at most 300 steps; its lists are worked out here, for which longer walks would take minutes."""
    longest = max((data for data, text in jobs.items() if (steps_of(text) or 301) <= 300), key=len)
    if len(jobs) < 500 or len(longest) < 400:
        raise SystemExit("the tables have %d jobs, the longest of %d bytes: too few" % (len(jobs), len(longest)))
    return longest


def input_cases(command, answer, longest):
    """The same bytes as a file, in pieces and broken off; padded ones; inputs and outputs that fail."""
    unread, unwritten = ((b"", (command[0].name + line).encode()) for line in (UNREAD, UNWRITTEN))
    worked = stored(ROOT / "crates" / "sweep", "stdin")
    for data in (b"", worked, longest):
        text = answer(data).encode()
        yield "%d bytes as a file" % len(data), lambda data=data: from_file(command, data), (text, b"")
        yield "%d bytes in pieces" % len(data), lambda data=data: from_pipe(command, data, 25), (text, b"")
        yield "%d bytes broken off" % len(data), lambda data=data: broken_off(command, data), unread
    for length in LENGTHS:
        for data in (longest.ljust(length, b"\0"), longest.ljust(length, b"\xff"), b"\4" * length):
            text = answer(data).encode()
            yield "%d bytes" % length, lambda data=data: from_pipe(command, data, 65_536), (text, b"")
            yield "%d bytes as a file" % length, lambda data=data: from_file(command, data), (text, b"")
    yield "a closed input", lambda: by_shell(command, "<&-"), unread
    yield "a folder as input", lambda: by_shell(command, "</"), unread
    yield "a full disk", lambda: by_shell(command, ">/dev/full"), unwritten
    yield "a closed output", lambda: by_shell(command, ">&-"), unwritten


def sweep_cases(program):
    """A name for each input, a call that runs it, and what both streams must hold."""
    jobs = table_jobs()
    for data, text in jobs.items():
        yield "job " + data.hex(), lambda data=data: from_pipe([program], data, 4_096), (text, b"")
    yield from input_cases([program], sweep, longest_of(jobs))


def own_setting(data, text):
    """A job's own last wheelbase as the only setting, and what must come of it by what sweep prints."""
    try:
        vehicle = read_job(data).vehicle
    except Refused:
        return SOME_SETTINGS, text
    wheelbase, widest = vehicle.units[vehicle.count - 1].wheelbase, re.search(rb"widest \d+ (\d+)", text)
    line = b"setting %d %s\n" % (wheelbase, widest[1]) if widest else b"refused 30\n"
    return [str(wheelbase), "4294967295", "1"], line


def list_inputs(jobs):
    """Jobs with three arguments each: those of the calls, the tables' shorter ones, and arguments at their ends."""
    inputs = [(job_bytes(job), list(map(str, numbers))) for job, numbers in given_rows() + long_rows()]
    short = [data for data, text in jobs.items() if (steps_of(text) or 61) <= 60]
    inputs += [(data, [str(5_000 + 4_000 * (k % 40)), "3000", "9"]) for k, data in enumerate(short[::5])]
    sound, refused = stored(ROOT / "crates" / "sweep", "stdin"), b"\0"
    return inputs + [(data, words) for words in ALLOWED for data in (sound, refused)]


def wrong_arguments():
    """None, too few, too many, and each wrong word in each place."""
    good = ["62000", "1000", "3"]
    yield from (good[:count] for count in range(3))
    yield from (good + ["1"], good + [""], good * 30)
    for word in NO_NUMBERS + TOO_LARGE:
        for place in range(3):
            yield good[:place] + [word] + good[place + 1 :]


def argument_cases(program):
    """Wrong arguments print one line whatever the input and the output are, which they leave alone."""
    worked = stored(ROOT / "crates" / "sweep", "stdin")
    for words in wrong_arguments():
        command = [program] + words
        yield "arguments %.60r" % words, lambda command=command: from_file(command, worked), (b"", EXPECTED)
    for redirection in ("<&-", "</", ">/dev/full", ">&-"):
        command = [program, "62000", "1000"]
        yield "two, " + redirection, lambda way=redirection: by_shell(command, way), (b"", EXPECTED)


def settings_case(program, data, words, text):
    """One input with its arguments; the name is cut, for some arguments are long."""
    name = "settings %.90s < %s" % (" ".join(words), data.hex())
    return name, lambda: from_pipe([program] + words, data, 4_096), (text, b"")


def settings_cases(program):
    """Every job of the tables at its own wheelbase, lists, wrong arguments, and what `sweep` is put through."""
    jobs = table_jobs()
    for data, text in jobs.items():
        yield settings_case(program, data, *own_setting(data, text))
    for data, words in list_inputs(jobs):
        yield settings_case(program, data, words, settings(data, *numbers_of(words)).encode())
    yield from argument_cases(program)
    numbers = numbers_of(SOME_SETTINGS)
    yield from input_cases([program] + SOME_SETTINGS, lambda data: settings(data, *numbers), longest_of(jobs))


def kerb_case(program, folder, at, job, geometry, text):
    """One job with one geometry, which stands in a file of its own."""
    file = folder / ("%d.wkb" % at)
    file.write_bytes(geometry)
    name = "kerb %s < %s" % (geometry[:60].hex(), job.hex())
    return name, lambda: from_pipe([program, file], job, 4_096), (text.encode(), b"")


def kerb_failures(program, file, worked):
    """Arguments that are wrong, files that cannot be opened, and one that cannot be read; the job is read before."""
    unopened, unread = ((b"", b"kerb: the kerb's file cannot be %s\n" % word) for word in (b"opened", b"read"))
    expected = (b"", b"kerb: expected one argument: the name of the kerb's file\n")
    for words in ([], [file, file], [file, ""]):
        yield "arguments %r" % words, lambda words=words: from_file([program] + words, worked), expected
    for name in ("", file.parent / "none.wkb", "x" * 5_000, file / "below"):
        yield "file %.60r" % name, lambda name=name: from_file([program, name], worked), unopened
    yield "a folder", lambda: from_file([program, file.parent], worked), unread
    for way in ("<&-", "</"):
        yield "no job, " + way, lambda way=way: by_shell([program, "none.wkb"], way), (b"", b"kerb" + UNREAD.encode())


def kerb_cases(program, folder):
    """Every job and geometry of the table, long and short files, files that fail, and what `sweep` is put through."""
    lines = (ROOT / "crates" / "kerb_trials" / "data" / "kerbs.txt").read_text("ascii").splitlines()
    crate = ROOT / "crates" / "kerb"
    worked, file = stored(crate, "stdin"), crate / "data" / "kerb.wkb"
    for at, (job, geometry, text) in enumerate([*table_inputs(lines), *long_files(worked)]):
        yield kerb_case(program, folder, at, job, geometry, text)
    yield from kerb_failures(program, file, worked)
    unnamed = os.path.join(os.fsencode(folder), b"\xff.wkb")
    shutil.copyfile(file, unnamed)
    yield "a name that is no text", lambda: from_file([program, unnamed], worked), (b"", b"kerb: the kerb's file cannot be opened\n")
    yield from input_cases([program, file], lambda data: printed(data, file.read_bytes()), longest_of(table_jobs()))


def stored(crate, name):
    file = crate / name
    return file.read_bytes() if file.is_file() else b""


def program_case(folder, crate):
    """As `rt check` runs it, and standard error too."""

    def run():
        words = stored(crate, "args").decode().splitlines()
        with tempfile.TemporaryDirectory() as place, tempfile.TemporaryFile() as stdin:
            if (crate / "data").is_dir():
                shutil.copytree(crate / "data", place, dirs_exist_ok=True)
            stdin.write(stored(crate, "stdin"))
            stdin.seek(0)
            return ended(started([folder / crate.name] + words, stdin=stdin, cwd=place))

    return crate.name, run, (stored(crate, "stdout"), b"")


def program_cases(folder):
    for main in sorted(ROOT.glob("crates/*/src/main.rt")):
        yield program_case(folder, main.parent.parent)


def differences(cases):
    """What each case that differs was given, gave and must give."""
    with concurrent.futures.ThreadPoolExecutor(os.cpu_count()) as pool:
        runs = [(name, pool.submit(run), expected) for name, run, expected in cases]
        found = [(name, ran.result(), expected) for name, ran, expected in runs]
    return len(found), [case for case in found if case[1] != case[2]]


def compare(what, cases, well):
    count, wrong = differences(cases)
    for name, got, expected in wrong[:5]:
        print("%s: %s\n  gave %r\n  must %r" % (what, name, got, expected), file=sys.stderr)
    if wrong:
        print("%s: %d of %d differ" % (what, len(wrong), count), file=sys.stderr)
    else:
        print("%s: %d %s" % (what, count, well))
    return not wrong


def main(arguments):
    folder = pathlib.Path(arguments[0] if arguments else ROOT / "target" / "bin").resolve()
    missing = [case[0] for case in program_cases(folder) if not (folder / case[0]).is_file()]
    if missing:
        print("not in %s: %s" % (folder, " ".join(missing)), file=sys.stderr)
        return 1
    with tempfile.TemporaryDirectory() as kerbs:
        same = [compare("programs", program_cases(folder), "run, both streams as stored"),
                compare("sweep", sweep_cases(folder / "sweep"), "inputs, all as expected"),
                compare("settings", settings_cases(folder / "settings"), "inputs, all as expected"),
                compare("kerb", kerb_cases(folder / "kerb", pathlib.Path(kerbs)), "inputs, all as expected")]
    return 0 if all(same) else 1


if __name__ == "__main__":
    sys.exit(main(sys.argv[1:]))
