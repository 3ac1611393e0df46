#!/usr/bin/env python3
"""Brings the repository's own definitions and lemmas to today's spelling: facts and types in upper
camel case, everything else in snake case. Run once, at the top, after the kit's own port script.

A name is the repository's own where a file of specs/ or proofs/ declares it. Names that Rattle
makes (a goal, a step of a function) keep their dashes, and so do strings and comments, but for
names between backticks. Functions of src/ have no dashes and are left alone."""

import glob
import re
import sys

WORD = re.compile(r"[^\s(){}\[\];,.⌜⌝⟦⟧|`\"]+")
TYPE = re.compile(r"Type [012]\s*$")
# a name that would fall together with another one of the same layer
OWN_WORDS = {"Open-at": "TellsOpenAt", "No-slot-free": "OutOfSlots"}
# steps that Rattle names after a loop's variable
MADE = {"rule-item"}


def is_made(path):
    return path.rsplit("/", 1)[-1] in ("Answers.antt", "Invariants.antt", "Proof.antt")


def declared(path):
    """The names that a file declares, each with whether it is a fact or a type."""
    lines = open(path).read().split("\n")
    kind = None
    for at, line in enumerate(lines):
        if not line.strip() or line.lstrip().startswith("--"):
            continue
        words = line.split()
        indent = len(line) - len(line.lstrip())
        if words[0] in ("use", "mod", "module", "unfolding", "open", "ruleset", "where", "let", "in"):
            continue
        if words[0] == "pub" and words[1] == "mod":
            continue
        if indent == 0:
            kind = next((w for w in words[:2] if w in ("data", "record")), None)
        plain = [w for w in words if w not in ("pub", "abbrev", "unfoldable")]
        if plain[0] in ("data", "record"):
            yield plain[1], True
            continue
        before = []
        while plain and plain[0] != ":" and WORD.fullmatch(plain[0]) and plain[0] != "=":
            before.append(plain.pop(0))
        if not plain or plain[0] != ":" or not before:
            continue
        if len(before) > 1 and not (kind and indent):
            continue
        if "goal." in line:
            continue
        whole = line
        for more in lines[at + 1:]:
            if not more.strip() or len(more) - len(more.lstrip()) <= indent:
                break
            whole += " " + more.strip()
        fact = bool(TYPE.search(re.split(r"\s=\s", whole)[0].rstrip())) and not (kind and indent)
        for name in before:
            yield name, fact


def spelled(name, fact):
    if name in OWN_WORDS:
        return OWN_WORDS[name]
    parts = name.split("-")
    if fact or name[0].isupper():
        return "".join(p[:1].upper() + p[1:] for p in parts)
    return "_".join(parts)


def turn_words(text, names, keep_made):
    def turn(m):
        word = m[0]
        if word not in names:
            return word
        if keep_made and word in MADE and text[m.start() - 1:m.start()] == ".":
            return word
        return names[word]
    return WORD.sub(turn, text)


def turn_code(text, names, keep_made, comment):
    out = []
    for line in text.split("\n"):
        at = line.find(comment)
        code, rest = (line, "") if at < 0 else (line[:at], line[at:])
        pieces = re.split(r"(\"(?:[^\"\\]|\\.)*\")", code)
        code = "".join(p if i % 2 else turn_words(p, names, keep_made) for i, p in enumerate(pieces))
        out.append(code + turn_quoted(rest, names))
    return "\n".join(out)


def turn_quoted(text, names):
    return re.sub(r"`[^`\n]+`", lambda m: turn_words(m[0], names, False), text)


def main():
    proofs = sorted(glob.glob("crates/*/specs/**/*.antt", recursive=True)
                    + glob.glob("crates/*/proofs/**/*.antt", recursive=True))
    names = {}
    for path in proofs:
        for name, fact in declared(path):
            if "-" in name:
                names[name] = names.get(name, False) or fact
        for alias in re.findall(r"\bas ([^\s(){}\[\];,.]+-[^\s(){}\[\];,.]+)", open(path).read()):
            names.setdefault(alias, False)
    names = {name: spelled(name, fact) for name, fact in names.items() if not name.startswith("-")}
    for path in proofs:
        text = open(path).read()
        new = turn_code(text, names, is_made(path), "--")
        if new != text:
            open(path, "w").write(new)
    for path in glob.glob("crates/*/src/**/*.rt", recursive=True) + glob.glob("crates/*/must-fail/*.edit"):
        text = open(path).read()
        new = turn_code(text, names, False, "//")
        if new != text:
            open(path, "w").write(new)
    # the kit's script turned some names already, so a page has each in its first spelling
    now = {n for path in proofs for n, _ in declared(path)}
    for path in ["README.md"] + glob.glob("docs/*.md"):
        text = open(path).read()
        older = dict(names)
        for word in set(WORD.findall(text)):
            if "-" in word and word not in older and word.replace("-", "_") in now:
                older[word] = word.replace("-", "_")
        new = turn_quoted(text, older)
        if new != text:
            open(path, "w").write(new)
    for old in sorted(names):
        print(old, names[old])


if __name__ == "__main__":
    sys.exit(main())
