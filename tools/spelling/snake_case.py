#!/usr/bin/env python3
"""Spells the repository's own names in antt as Rattle does now: words in snake case, and no brackets round a name that is not reserved.

usage: tools/spelling/snake_case.py [--check]

A definition, a lemma, a variable and a field with dashes (`first-sample`) get underscores (`first_sample`), in specs/ and proofs/, in the clauses and ghost lines of src/, in must-fail edits, and between backticks in comments and documents (docs/PORT.md speaks of the old spelling, and is left).
What a library or the check names keeps its spelling. So do strings, words of prose and the code of src/. --check changes nothing, and fails if a file would change.
It also lists what would fall together: two names of one file that differ only in the dash.
"""

import os
import pathlib
import re
import subprocess
import sys

TOP = pathlib.Path(__file__).resolve().parents[2]
RESERVED = set("data record deriving module where use mod pub package open as unfoldable abbrev axiom unfold unfolding ruleset mutual infix infixl infixr elim let in do Type coe fcoe tcoe hcom com rw simp search grind omega cc assumption ground hlevel first_of if then else start stop".split())
NAME = r'[^\s(){}.;,@"«»`]+'
DASHED = re.compile(r"^[A-Za-zα-ω+]['\w]*(?:-[\w']+)+$")
DECLARED = re.compile(r"(?m)^ *(?:\w+ )*?([^\s(){}.;,@\"«»:]+(?: [^\s(){}.;,@\"«»:=→]+)*)(?: \{[^{}\n]*\})* :(?!:)")
BINDER = re.compile(r"[({]([^\s(){}.;,:]+(?: [^\s(){}.;,:]+)*) :")
LET = re.compile(r"\blet ([^\s(){}.;,:]+) [:=]")
LAMBDA = re.compile(r"λ ((?:[^\s(){}.;,:]+ )*[^\s(){}.;,:]+)\.")
OWN = ""


def crates():
    return sorted(p.name for p in (TOP / "crates").iterdir() if (p / "src").is_dir())


def is_own(path):
    steps = path.split(".")
    return steps[0] == "Rattle" and len(steps) > 1 and steps[1] in OWN


def texts(*endings):
    for folder in ("crates",):
        for p in sorted((TOP / folder).rglob("*")):
            if p.suffix in endings and "out" not in p.relative_to(TOP).parts:
                yield p


def generated(p):
    """A file beside the code that the check writes: its goals and contexts have names of the check's own."""
    parts = p.relative_to(TOP).parts
    return p.suffix == ".antt" and parts[2] == "proofs" and len(parts) > 4


def body(line):
    """The line without its comment."""
    at = line.find("--")
    while at > 0 and line[at - 1] not in " \t":
        at = line.find("--", at + 1)
    return line if at < 0 or not (at == 0 or line[at - 1] in " \t") else line[:at]


def declared(p):
    names, asked = set(), set()
    whole = p.read_text(encoding="utf-8")
    for line in whole.split("\n"):
        text = body(line)
        if re.match(r"\s*(pub )?use ", text):
            continue
        for m in DECLARED.finditer(text):
            words = m[1].split(" ")
            if generated(p) and re.search(r": *(\w+[.])?[Nn]eed[-.]|: *tie[.]|: *goal[.]", text):
                asked.update(words)
            else:
                names.update(words)
        for pattern in (BINDER, LET, LAMBDA):
            for m in pattern.finditer(text):
                names.update(m[1].split(" "))
        # the variables on the left of a clause
        m = re.match(r"^ *([^\s=:]+ (?:[^=:]+ )?)=(?: |$)", text)
        if m:
            names.update(w for w in re.findall(NAME, m[1]))
        # and in patterns elsewhere
        if not generated(p):
            names.update(w for w in re.findall(rf"(?<!\.)(?<![\w'-]){NAME}", text) if DASHED.match(w))
    return names - asked - File(whole).library, asked


def spelled(name):
    return name.replace("-", "_")


class File:
    def __init__(self, text, beside_code=False):
        # beside the code `c.some-name` is the check's
        self.library, self.modules = set(), {"c", "tie", "goal", "l", "w", "g"} if beside_code else set()
        for m in re.finditer(r"(?m)^ *(?:ghost )?(?:pub )?use ([^\s;{]+?)(?:\.\{([^}]*)\})?(?: as ([^\s;]+))?;?$", text):
            path, names, alias = m[1], m[2], m[3]
            if is_own(path):
                continue
            if names is None:
                self.modules.add(alias or path.split(".")[-1])
            else:
                for n in names.split(","):
                    self.library.update(n.strip().split(" as "))

    def turn(self, text, own, within=None):
        """text with the names of own respelled; a name behind a dot only where what stands before is no library's or the check's."""

        def one(m):
            name = m[0]
            if name not in own or name in self.library:
                return name
            before = re.search(rf"((?:{NAME}\.)+)$", text[: m.start()])
            if before:
                head = before[1].split(".")[0]
                if head in self.modules:
                    return name
                if within is not None and head[:1].islower():
                    return name
            return spelled(name)

        text = re.sub(NAME, one, text)

        def bare(m):
            return m[0] if m[1] in RESERVED or not re.fullmatch(r"\w+", m[1]) else m[1]

        return re.sub(r"«([^«»]*)»", bare, text)


def in_backticks(text, own, f):
    return re.sub(r"`[^`\n]+`", lambda m: f.turn(m[0], own), text)


def turn_antt(p, own, told):
    text = p.read_text(encoding="utf-8")
    f = File(text, generated(p))
    done = []
    for line in text.split("\n"):
        code = body(line)
        if re.match(r"\s*(pub )?use ", code):
            path = re.match(r"\s*(?:pub )?use ([^\s;{]+?)(?:\.\{|$| )", code)[1]
            done.append(f.turn(code, own) + line[len(code):] if is_own(path) else line)
            continue
        done.append(f.turn(code, own, within=True if generated(p) else None) + in_backticks(line[len(code):], told, f))
    return text, "\n".join(done)


CLAUSE = re.compile(r"^\s*(ghost|requires\*?|ensures\*?|also_\w+)\b")


def turn_rt(p, own, told):
    text = p.read_text(encoding="utf-8")
    f = File(text)
    done, depth = [], 0
    for line in text.split("\n"):
        at = re.search(r"(?<!:)//", line)
        code, comment = (line[: at.start()], line[at.start():]) if at else (line, "")
        if depth or CLAUSE.match(code):
            path = re.match(r"\s*ghost use ([^\s;{]+)", code)
            if not path or is_own(path[1].rstrip(".")):
                done.append(f.turn(code, own) + in_backticks(comment, told, f))
            else:
                done.append(line)
            if not path:
                depth += code.count("{") - code.count("}")
            continue
        done.append(code + in_backticks(comment, told, f))
    return text, "\n".join(done)


def turn_edit(p, own, of):
    text = p.read_text(encoding="utf-8")
    done, file = [], None
    for line in text.split("\n"):
        m = re.match(r"file: (.*)$", line)
        if m:
            file = p.parent.parent / m[1].strip()
        m = re.match(r"(old|new): (.*)$", line)
        if m and file is not None:
            f = of.get(file) or File("")
            line = f"{m[1]}: {f.turn(m[2], own)}"
        done.append(line)
    return text, "\n".join(done)


def main(argv):
    global OWN
    OWN = set(crates())
    antt = list(texts(".antt"))
    every, of = set(), {}
    for p in antt:
        every |= declared(p)[0]
    shared = {n for n in every if DASHED.match(n)}
    # what edits and texts may still call by its old spelling: names that have their new one in specs/ and proofs/ already
    told = shared | {n.replace("_", "-") for n in every if re.fullmatch(r"[A-Za-z]\w*_\w+", n)}
    for p in list(texts(".antt")) + list(texts(".rt")):
        of[p] = File(p.read_text(encoding="utf-8"))
    changed = []

    def write(p, text, new):
        if text != new:
            changed.append(p)
            if "--check" not in argv:
                p.write_text(new, encoding="utf-8")

    for p in antt:
        words = set(re.findall(NAME, p.read_text(encoding="utf-8")))
        for n in sorted(shared & words):
            if spelled(n) in words:
                print(f"look: {p.relative_to(TOP)} has both {n} and {spelled(n)}")
        write(p, *turn_antt(p, shared, told))
    for p in texts(".rt"):
        write(p, *turn_rt(p, shared, told))
    for p in texts(".edit"):
        write(p, *turn_edit(p, told, of))
    for p in [TOP / "README.md"] + sorted(p for p in (TOP / "docs").rglob("*.md") if p.name != "PORT.md") + sorted((TOP / "crates").glob("*/*.md")) + sorted((TOP / "tools").rglob("*.md")):
        text = p.read_text(encoding="utf-8")
        write(p, text, in_backticks(text, told, File("")))
    print(f"{len(changed)} files {'would change' if '--check' in argv else 'changed'}, {len(shared)} names")
    return 1 if changed and "--check" in argv else 0


if __name__ == "__main__":
    sys.exit(main(sys.argv[1:]))
