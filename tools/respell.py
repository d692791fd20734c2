#!/usr/bin/env python3
"""Brings this repository's own definitions and lemmas to the spelling of the proof language's library: words in snake case,
where they were in camel case or joined by dashes. Types and modules keep their capitals, functions of src/ their names.

    respell.py           rewrite crates/*/{specs,proofs,src,must-fail} in place
    respell.py --map     print each old name with its new one, and write nothing

It was run once, right after the kit's own port.py, over what that left; words of comments that share a lemma's name with a dash were
mended by hand. Since then it does by itself what was done by hand besides: aliases, and capitals that follow one another.
"""
import re
import sys
from pathlib import Path

ROOT = Path(__file__).resolve().parent.parent
LETTER = r"[^\s(){}\[\],;.@\"`λ⌜⌝]"
TOKEN = re.compile(rf"{LETTER}+")
DEFINED = re.compile(rf"^\s*(?:(?:abbrev|unfoldable|pub|opaque|private|foldable)\s+)*({LETTER}+)\s+:\s", re.M)
ALIASED = re.compile(r"\bas ([a-z]\w*[A-Z]\w*)")
# Variables of definitions, which no pattern tells from what they are given.
VARIABLES = {"behindOne", "otherAnswer"}
USED = re.compile(r"^\s*(?:pub )?(?:ghost )?use ([^\s{]+?)(?:\.\{([^}]*)\})?(?: as [^\s;]+)?;?$", re.M)
ALIAS = re.compile(r"^use (\w+)\.(\w+)[^\s{]* as ([\w'-]+)$", re.M)
# What a check asks for by name in a walk of the code: the goals keep their names until their answers are turned.
GOAL = re.compile(rf"^({LETTER}+) : (?:\(?tie\.|.*\btie\.Need-)", re.M)


def snake(name):
    """A name in snake case: a capital inside a word begins a new one, a dash joins no two words."""
    words = re.sub(r"(?<=[a-z0-9])(?=[A-Z])|(?<=[A-Z])(?=[A-Z][a-z])", "_", name)
    return re.sub(r"(?<=[\w'])-(?=[\w'])", "_", re.sub(r"[A-Z]", lambda m: m[0].lower(), words))


def files():
    for crate in sorted((ROOT / "crates").iterdir()):
        for folder in ("specs", "proofs", "src", "must-fail"):
            yield from sorted(p for p in (crate / folder).rglob("*") if p.suffix in (".antt", ".rt", ".edit"))


def names(own, taken, tokens):
    """Each name that changes with its new one. A lemma that would have a definition's name, or one that is in use, gets `_lem`."""
    old = [n for n in sorted(own) if re.match(r"[a-z]", n) and n not in taken and snake(n) != n]
    turned = {n: snake(n) for n in old if "-" not in n}
    if len(set(turned.values())) < len(turned):
        sys.exit("definitions fall together")
    for new in [n for n in turned.values() if n in own]:
        turned[new] = new + "_lem"
    for n in old:
        if n not in turned:
            new = snake(n)
            turned[n] = new + "_lem" if new in tokens or new in turned.values() else new
    for new in turned.values():
        if list(turned.values()).count(new) > 1 or new.endswith("_lem") and new in tokens:
            sys.exit(f"{new}: names fall together")
    return turned


def rewrite(p, text, turned, crates):
    """A file with its names turned, but for those of a module that is not this repository's, and for steps of the code."""
    foreign = {m[3] for m in ALIAS.finditer(text) if not (m[1] == "Rattle" and m[2] in crates)}

    def word(m):
        before = text[: m.start()]
        old = m[0]
        if p.suffix in (".rt", ".edit") and "-" not in old and old == snake(old):
            return old
        if before.endswith(".") and (re.split(r"[^\w'·-]", before[:-1])[-1] in foreign or "-" not in old and old == snake(old)):
            return old
        return turned.get(old, old)

    new = TOKEN.sub(word, text)
    if new != text:
        p.write_text(new)


def main():
    texts = {p: p.read_text() for p in files()}
    own, goals, theirs, crates = set(), set(), set(), {p.name for p in (ROOT / "crates").iterdir()}
    tokens = set()
    for p, text in texts.items():
        bare = re.sub(r"--.*", "", text) if p.suffix == ".antt" else re.sub(r"//.*", "", text)
        tokens |= set(TOKEN.findall(bare))
        for m in USED.finditer(text):
            path = m[1].split(".")
            if path[0] == "Rattle" and len(path) > 1 and path[1] in crates:
                continue
            theirs |= {w.split(" as ")[0].strip() for w in (m[2] or "").split(",")}
        if "proofs" not in p.parts:
            own |= set(ALIASED.findall(bare))
        if p.suffix == ".antt":
            own |= set(DEFINED.findall(bare)) | VARIABLES
            goals |= set(GOAL.findall(text))
    turned = names(own, theirs | goals, tokens)
    if "--map" in sys.argv:
        for old, new in turned.items():
            print(old, new)
        return
    for p, text in texts.items():
        rewrite(p, text, turned, crates)
    for page in (ROOT / "README.md", *sorted((ROOT / "docs").rglob("*.md"))):
        text = page.read_text()
        page.write_text(re.sub(r"`[^`\n]+`", lambda code: TOKEN.sub(lambda m: m[0] if "-" not in m[0] and m[0] == snake(m[0]) else turned.get(m[0], m[0]), code[0]), text))


main()
