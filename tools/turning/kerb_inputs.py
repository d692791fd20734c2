"""What the program `kerb` is fed: jobs with the geometries of the kerb vectors, files that are long, short or missing, and the text that each must print."""

from .kerb_lines import OF_SURVEY, answer_with_place
from .kerb_report import report_of_survey
from .kerb_samples import line_string, point
from .tables import Figures

LONGEST = 8_009  # bytes of a line of 500 vertices


def text_of(number, place, unit, found, step, touched):
    """The program's line for an answer of the kerb vectors."""
    if number and unit:
        return "refused %d unit %d step %d\n" % (number, unit, step)
    if number:
        return "refused %d at %d\n" % (number, place)
    return "touch %d %d\n" % (step, touched) if found else "touch none\n"


def printed(job, geometry):
    return text_of(*answer_with_place(report_of_survey, job, geometry))


def table_inputs(lines):
    """The jobs and geometries of the table's lines, with what its answers print."""
    for line in lines:
        given, _, answer = line.partition(" = ")
        figures = Figures(given)
        if figures.one() == OF_SURVEY:
            job, geometry = figures.runs(2)
            yield bytes(job), bytes(geometry), text_of(*map(int, answer.split()))


def long_files(job):
    """Geometries around the number of bytes that the program reads, and far beyond it."""
    line = line_string([metres for k in range(500) for metres in (-2_000.0 - k, 7_000.0)])
    assert len(line) == LONGEST
    for geometry in (line, line[:-1], line + b"\0", line + b"\1" * 100_000, point(1.2, 3.0) + b"\0" * 20_000, b"", b"\1"):
        yield job, geometry, printed(job, geometry)
