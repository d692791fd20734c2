#!/usr/bin/env python3
"""Holds the mirror image of a unit to products of two numbers of 32 bits (02, N2): reads every function by which it is worked out
before it is settled, those of unit's mirror.rt and whatever they call, and finds no multiplication but the one in `product`, no left
shift but the one by a literal, and no loop. Comments, contracts and `ghost use` lines do not count. Its samples are tried first."""
import re
import sys
from pathlib import Path

import multiplications_samples as samples
from rattle_source import WHOLE_TYPES, Unreadable, calls_of, module_of

ROOT = Path(__file__).resolve().parent.parent
MIRROR = ("unit", "mirror")
PRODUCT = (MIRROR, "product")
PRODUCT_SIGNATURE = "( a : u32 , b : u32 ) -> u64"
PRODUCT_BODY = "u64 :: from ( a ) * u64 :: from ( b )"
# What ties the image to mirror.rt: the drawn rule settles what is worked out there, and nothing else.
TURNED_BODY = "plane :: settle ( mirror :: mirrored_vector ( d , f ) , l )"
# What of the standard library may be called: the size of a whole number, and a whole number in a wider type; neither multiplies.
PLAIN = {(".unsigned_abs",), *((kind, "from") for kind in WHOLE_TYPES)}
# What would give these names another meaning, wherever in the source it stands.
OWN = re.compile(r"\bfn\s+(unsigned_abs)\b|\b(From)\b[^{;]*\bfor\s+(?:%s)\b" % "|".join(sorted(WHOLE_TYPES)))
LOOPS = {"while", "loop", "for"}
WHOLE_NUMBER = re.compile(r"[0-9_]+([iu](8|16|32|64|128|size))?")
# What may follow an operand that is a literal and no more.
ENDS = {")", "}", ";", ","}
SHIFT = re.compile(r"product \( \w+ , \w+ \) << 32 [)};,]")


class Forbidden(Exception):
    """A multiplication, a shift or a call that may hide one; the text says which and where."""


def told(function):
    (crate, module), name = function
    return f"{crate}::{name}" if module == "lib" else f"{crate}::{module}::{name}"


class Source:
    """The modules of the source, read when they are asked for; `texts` gives a file's text."""

    def __init__(self, texts):
        self.texts = texts
        self.read = {}

    def module(self, place):
        """The module's contents, or nothing where there is no such file."""
        if place not in self.read:
            path = "crates/{}/src/{}.rt".format(*place)
            try:
                self.read[place] = module_of(self.texts(path) or "")
            except Unreadable as reason:
                raise Unreadable(f"{path}: {reason}") from reason
        return self.read[place]

    def function(self, function):
        place, name = function
        return self.module(place).functions[name]

    def callee(self, caller, path):
        """The function that a call reaches: of the same module, of an imported name, or of another crate's root."""
        place = caller[0]
        module = self.module(place)
        if len(path) == 1 and path[0] in module.functions:
            return place, path[0]
        if len(path) == 1 and path[0] in module.imports:
            path = [name for name in module.imports[path[0]] if name != "::"]
        local = path[0] in module.modules or path[0] in module.imports
        if len(path) == 2 and not local and path[1] in self.module((path[0], "lib")).functions:
            return (path[0], "lib"), path[1]
        raise Forbidden(f"{told(caller)} calls {'::'.join(path)}, which is not read")

    def reached(self, function, above=()):
        """The function and all that it calls, once each."""
        if function in above:
            raise Forbidden(f"{told(function)} calls itself")
        found = [function]
        for path in calls_of(self.function(function).body):
            if tuple(path) in PLAIN:
                continue
            for other in self.reached(self.callee(function, path), (*above, function)):
                if other not in found:
                    found.append(other)
        return found


def check_product(module):
    product = module.functions.get("product")
    if product is None or " ".join(product.signature) != PRODUCT_SIGNATURE or " ".join(product.body) != PRODUCT_BODY:
        raise Forbidden(f"product must read {PRODUCT_SIGNATURE} {{ {PRODUCT_BODY} }}")


def check_turned(module):
    turned = module.functions.get("turned")
    if turned is None or "mirror" not in module.modules or " ".join(turned.body) != TURNED_BODY:
        raise Forbidden(f"turned must read {TURNED_BODY}")


def check_tokens(where, tokens):
    for before, token in zip(["", *tokens], tokens):
        if token in {"*", "*=", "<<="}:
            raise Forbidden(f"{where} has {token}")
        if token in LOOPS:
            raise Forbidden(f"{where} has a loop")
        if (token[0].isdigit() and not WHOLE_NUMBER.fullmatch(token)) or (token == "." and before[:1].isdigit()):
            raise Forbidden(f"{where} has a number that is not whole")
        if before == "as" and token not in WHOLE_TYPES:
            raise Forbidden(f"{where} makes a number a {token}")


def check_shifts(bodies):
    """One left shift, of a `product` by the literal width of the low part; in mirror.rt parts are taken by literals."""
    shifts = [(function, body, at) for function, body in bodies for at, token in enumerate(body) if token == "<<"]
    if len(shifts) != 1:
        raise Forbidden(f"left shifts: {', '.join(told(function) for function, _, _ in shifts) or 'none'}")
    function, body, at = shifts[0]
    around = " ".join([*body[max(at - 6, 0) : at], *body[at : at + 2], *(body[at + 2 : at + 3] or [";"])])
    if function[0] != MIRROR or not SHIFT.fullmatch(around):
        raise Forbidden(f"{told(function)} shifts left what is no product, or by more than a literal")
    for function, body in bodies:
        for token, after, end in zip(body, [*body[1:], ";"], [*body[2:], ";", ";"]):
            if function[0] == MIRROR and token in {"/", "%", ">>", "/=", "%=", ">>="} and not (after.isdecimal() and end in ENDS):
                raise Forbidden(f"{told(function)} has {token} by more than a literal")


def check_plain(texts, paths):
    """What may be called of the standard library is nowhere written anew, comments not told apart."""
    for path in paths:
        own = OWN.search(texts(path) or "")
        if own:
            raise Forbidden(f"{path} has a {own[1] or own[2]} of its own")


def check(texts, paths):
    """The functions that were read; what is not allowed is raised. `paths` are all files of the source."""
    check_plain(texts, paths)
    source = Source(texts)
    mirror = source.module(MIRROR)
    check_turned(source.module(("unit", "lib")))
    check_product(mirror)
    found = []
    for name in mirror.functions:
        found += [function for function in source.reached((MIRROR, name)) if function not in found]
    bodies = [(function, source.function(function).body) for function in found if function != PRODUCT]
    for function, body in bodies:
        check_tokens(told(function), body)
    for place in dict.fromkeys(place for place, _ in found):
        for name, value in source.module(place).constants.items():
            check_tokens(f"the constant {name}", value)
            if "<<" in value:
                raise Forbidden(f"the constant {name} has <<")
    check_shifts(bodies)
    return found


def file_text(path):
    file = ROOT / path
    return file.read_bytes().decode() if file.is_file() else None


def try_samples():
    """Every sample is told as it says: by the reason it must be refused for, or by nothing."""
    tried = samples.all_samples()
    wrong = 0
    for name, files, expected in tried:
        try:
            check(files.get, files)
            answer = ""
        except (Forbidden, Unreadable) as reason:
            answer = str(reason).split(".rt: ")[-1]
        if answer != expected:
            print(f"sample {name!r}: {answer or 'accepted'!r}, not {expected or 'accepted'!r}")
            wrong += 1
    return wrong, len(tried)


def main():
    wrong, count = try_samples()
    try:
        found = check(file_text, [str(file.relative_to(ROOT)) for file in sorted(ROOT.glob("crates/*/src/**/*.rt"))])
    except Unreadable as reason:
        print(f"the source of the mirror image cannot be searched for multiplications: {reason}")
        return 1
    except Forbidden as reason:
        print(f"the mirror image is not worked out by products of 32 bits alone: {reason}")
        return 1
    print(f"the mirror image: {len(found)} functions read, one multiplication, of 32 bits; {count} samples, {wrong} told wrong")
    return 1 if wrong else 0


if __name__ == "__main__":
    sys.exit(main())
