"""Rows of the tables computed again from what stands before their answers."""

from .calls import (LAY, LIST, PATH_TURN, PLACE, STEP, UNIT_TURN, WIDEST, WRITE, line_lay, line_list, line_path_turn,
                    line_place, line_step, line_unit_turn, line_widest, line_write)
from .record import NO_ELEMENT, Body, Element, Job, Start, Unit, Vehicle
from .sweep import sweep
from .walk import Runs, Walk


class Figures:
    """The integers of a call, taken from the first on."""

    def __init__(self, text):
        self.left = [int(word) for word in text.split(" ")]

    def take(self, n):
        taken, self.left = self.left[:n], self.left[n:]
        return taken

    def one(self):
        return self.take(1)[0]

    def vectors(self, n):
        return [tuple(self.take(2)) for _ in range(n)]

    def runs(self, n):
        return [self.take(self.one()) for _ in range(n)]

    def unit(self):
        return Unit(*self.take(3), Body(*self.take(3)))

    def vehicle(self):
        form, count = self.take(2)
        return Vehicle(form, count, [self.unit() for _ in range(4)], *self.take(3))

    def walk(self):
        vehicle = self.vehicle()
        return Walk(vehicle, self.one(), self.vectors(4))

    def job(self):
        vehicle, start = self.vehicle(), Start(*self.take(4))
        step, count, given = self.take(3)
        elements = [Element(*self.take(3)) for _ in range(given)]
        return Job(vehicle, start, step, count, elements + [NO_ELEMENT] * (64 - given))


READ = {
    PLACE: lambda f: line_place(f.vehicle(), f.walk(), f.one(), Runs(*f.runs(7))),
    STEP: lambda f: line_step(f.walk(), f.one(), Runs(*f.runs(7))),
    WIDEST: lambda f: line_widest(f.walk(), f.one(), *f.runs(3)),
    WRITE: lambda f: line_write(f.job(), *f.runs(1)),
    LAY: lambda f: line_lay(f.job(), f.runs(4)),
    PATH_TURN: lambda f: line_path_turn(tuple(f.take(2)), f.one(), f.one()),
    UNIT_TURN: lambda f: line_unit_turn(*f.vectors(2), f.one()),
    LIST: lambda f: line_list(f.job(), *f.take(3), Runs(*f.runs(7))),
}


def call_again(line):
    figures = Figures(line.split(" = ")[0])
    return READ[figures.one()](figures)


def job_line(data):
    """A line of the job vectors: the bytes in hexadecimal, '-' for none, and what sweep prints, with '/' at the end of each line."""
    return "%s %s" % (data.hex() or "-", sweep(data).replace("\n", "/"))


def job_again(line):
    text = line.split(" ", 1)[0]
    return job_line(b"" if text == "-" else bytes.fromhex(text))
