#!/usr/bin/env python3
"""Counts the places in src/ that read like the older language, point by point as docs/DESIGN-PASS.md numbers them.

    design_places.py            how many places each point has
    design_places.py 1 3        the places of these points, one a line

A place that is kept for a reason says so in a comment line beside it that starts with `// Kept:`; it counts still, and is marked `kept`.
"""
import re
import sys
from collections import defaultdict
from pathlib import Path

ROOT = Path(__file__).resolve().parent.parent
HEAD = re.compile(r'^(\s*)(?:pub(?:\(crate\))? )?(?:const )?(?:extern "C" )?(fn|struct|enum) (\w+)', re.M)
OPTION_LIKE = re.compile(r"^\s*(?:\w*Refused\w*|Stopped|Unreadable|NotFinite|Failed|Nothing)\b", re.M)
FLAG = re.compile(r"^\s*(?:pub )?(?:answer: (?:\w+)|turns: (?:\w+)|right: bool|fits: bool|next: (?:\w+::)*Cursor),", re.M)
WIDENED = re.compile(r"\bas (?:i64|u64|usize|u32)\b|\bexact::wide(?:_signed)?\(")
TOKEN = re.compile(r"\w+|[^\w\s]")
WORDS = {"fn", "let", "mut", "if", "else", "match", "while", "for", "in", "return", "struct", "enum", "pub", "ref", "true", "false"}
GROUPS = (("xs", "ys", "gxs", "gys"), ("left", "right", "marks"), ("lowest", "pitch", "number"), ("kerb_xs", "kerb_ys"), ("olds", "news"),
          ("gx", "gy"))


def items(file):
    """Each function, struct and enum of a file: its kind, its name, its first line and its text."""
    text = file.read_text()
    heads = list(HEAD.finditer(text))
    for at, head in enumerate(heads):
        end = heads[at + 1].start() if at + 1 < len(heads) else len(text)
        close = re.search(rf"^{head[1]}\}}", text[head.start():end], re.M)
        yield head[2], head[3], text.count("\n", 0, head.start()) + 1, text[head.start():head.start() + close.end()] if close else text[head.start():end]


def contract_cut(body):
    """A function without its clauses."""
    out, depth = [], 0
    for line in body.splitlines():
        clause = re.match(r"\s*(requires|ensures)\b", line)
        if clause or depth:
            depth += line.count("{") - line.count("}")
            continue
        out.append(line)
    return "\n".join(out)


def shape(body):
    """What is left of an item when its names, types and numbers are."""
    code = re.sub(r"//.*", "", contract_cut(body))
    return " ".join(word if word in WORDS or not word[0].isalnum() and word[0] != "_" else "n" for word in TOKEN.findall(code))


def places():
    """(point, file:line, what, kept)"""
    shapes = defaultdict(list)
    groups = defaultdict(list)
    for file in sorted(ROOT.glob("crates/*/src/**/*.rt")):
        name = str(file.relative_to(ROOT))
        lines = file.read_text().splitlines()

        def kept(at):
            near = lines[max(0, at - 4):at + 1]
            return any(line.strip().startswith("// Kept:") for line in near)

        for kind, own, at, text in items(file):
            body = contract_cut(text)
            here = (f"{name}:{at}", f"{kind} {own}", kept(at - 1) or "// Kept:" in text)
            if kind == "enum" and OPTION_LIKE.search(text):
                yield 1, *here
            if kind == "struct" and FLAG.search(text):
                yield 1, *here
            if kind == "fn" and (re.search(r"\) -> u8\b", body) or re.search(r"\b(?:fault|number|own): u8\b|\bkind: u\d+\b", body)):
                yield 1, *here
            # a claim runs nothing, so all claims are alike
            if len(TOKEN.findall(body)) >= 30 and not re.search(r"^\{\}", body, re.M):
                shapes[(kind, shape(text))].append(here)
            if kind == "fn":
                signature = body.split("{", 1)[0]
                for group in GROUPS:
                    if all(re.search(rf"\b{part}: ", signature) for part in group):
                        groups[group].append(here)
                if re.search(r"\b(?:count|n|asked|steps): usize", signature) and re.search(r": (?:&(?:mut )?)?\[[\w:]+; \w+(?:::\w+)*\]", signature):
                    yield 6, *here
                if re.search(r"\b(?:kind|what)\b (?:==|\{)|match kind", body):
                    yield 7, *here
                if re.search(r"^(?:pub )?(?:pub\(crate\) )?fn (?:smaller|greater|least|most|size|size_of\w*|is_made|is_before|wide|wide_signed|get|put)\(", text.strip()):
                    yield 4, *here
                if re.search(r"=> true,", body) and re.search(r"=> false,", body):
                    yield 4, here[0], here[1] + " (match to bool)", here[2]
            if kind == "struct" and re.search(r"\b(?:count|length|at): usize", text) and re.search(r": \[", text):
                yield 6, *here
        for at, line in enumerate(lines):
            code = line.split("//")[0]
            if re.search(r"\bwhile\b", code):
                yield 3, f"{name}:{at + 1}", code.strip(), kept(at)
            for cast in WIDENED.finditer(code):
                yield 4, f"{name}:{at + 1}", cast[0], kept(at)
    for file in sorted(ROOT.glob("crates/*/proofs/*/*.antt")):
        name = str(file.relative_to(ROOT))
        for at, line in enumerate(file.read_text().splitlines()):
            # what the check tries itself, and steps that it names as its own
            if re.search(r" = (?:λ \w+\. )?(?:search rules|omega arith|refl|grind \(arith, common_steps\))$", line) and not line.startswith(" "):
                yield 8, f"{name}:{at + 1}", line.strip(), False
            elif re.search(r"\b(?:lts|reads|tie)\.", line) and not line.startswith("use "):
                yield 8, f"{name}:{at + 1}", line.strip(), False
    for (kind, _), alike in shapes.items():
        if len(alike) > 1:
            for where, what, reason in alike:
                yield 2, where, f"{what} (like {next(other[0] for other in alike if other[0] != where)})", reason
    for group, uses in groups.items():
        if len(uses) >= 3:
            for where, what, reason in uses:
                yield 5, where, f"{what} ({', '.join(group)})", reason


def main():
    wanted = [int(word) for word in sys.argv[1:]]
    found = defaultdict(list)
    for point, where, what, reason in places():
        found[point].append((where, what, reason))
    for point in sorted(found) if not wanted else wanted:
        rows = sorted(set(found[point]))
        if wanted:
            for where, what, reason in rows:
                print(f"{point} {where}: {what}{' kept' if reason else ''}")
        print(f"point {point}: {len(rows)} places, {sum(row[2] for row in rows)} of them kept with a reason")
    return 0


if __name__ == "__main__":
    sys.exit(main())
