"""Lines of the kerb vectors: an operation's integers, ' = ', and the integers expected, all apart by one space.

  1 bytes xs ys = refusal place vertices xs ys                               reading a geometry into two lent runs
  2 record stations xs ys gxs gys vertices kerb_xs kerb_ys = answer          report on a kerb
  3 job_bytes vertices kerb_xs kerb_ys = refusal place, then the rest of answer   the same from a job's bytes
  4 job_bytes geometry_bytes = refusal place, then the rest of answer        the same from a job's bytes and a kerb's

  answer: refusal unit found step point

Bytes and runs are a length, then the entries; a record stands as in the call vectors. A refusal is 0 where there is none, and the figures
it leaves without meaning are 0. A touch is found 1 with its step and point; none is all zeros; a refused step is its number, unit and step.
"""

from .calls import flat_runs, flat_walk, line
from .kerb_bytes import read_kerb
from .kerb_report import report, report_of_job, report_of_survey
from .record import Refused
from .tables import Figures

READ, REPORT, OF_JOB, OF_SURVEY = range(1, 5)


def line_read(data, xs, ys):
    after, number, at, vertices = [list(xs), list(ys)], 0, 0, 0
    try:
        vertices = read_kerb(data, *after)
    except Refused as refused:
        number, at = refused.number, refused.at or 0
    return line(READ, flat_runs([data, xs, ys]), [number, at, vertices] + flat_runs(after))


def line_report(walk, asked, path, vertices, kerb):
    try:
        expected = report(walk, asked, path, vertices, kerb)
    except Refused as refused:
        expected = [refused.number, 0, 0, 0, 0]
    return line(REPORT, flat_walk(walk) + [asked] + flat_runs(path) + [vertices] + flat_runs(kerb), expected)


def answer_with_place(function, *arguments):
    try:
        answer, at = function(*arguments), 0
    except Refused as refused:
        answer, at = [refused.number, 0, 0, 0, 0], refused.at or 0
    return answer[:1] + [at] + answer[1:]


def line_of_job(data, vertices, kerb):
    expected = answer_with_place(report_of_job, data, vertices, kerb)
    return line(OF_JOB, flat_runs([data]) + [vertices] + flat_runs(kerb), expected)


def line_of_survey(data, geometry):
    return line(OF_SURVEY, flat_runs([data, geometry]), answer_with_place(report_of_survey, data, geometry))


AGAIN = {
    READ: lambda f: line_read(bytes(*f.runs(1)), *f.runs(2)),
    REPORT: lambda f: line_report(f.walk(), f.one(), f.runs(4), f.one(), f.runs(2)),
    OF_JOB: lambda f: line_of_job(bytes(*f.runs(1)), f.one(), f.runs(2)),
    OF_SURVEY: lambda f: line_of_survey(*map(bytes, f.runs(2))),
}


def kerb_again(text):
    """A row computed again from what stands before its answer."""
    figures = Figures(text.split(" = ")[0])
    return AGAIN[figures.one()](figures)
