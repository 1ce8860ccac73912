#!/usr/bin/env python3
"""Spells the repository's own definitions, lemmas, fields and local names as the library spells its own:
types and facts in upper camel case, everything else in snake case. Names of the library and those that the
check makes for goals and places keep their hyphens, and so do comments and texts.

usage: python3 tools/respell.py        at the top of the repository; then rt fmt in each crate"""

import os
import re
import sys

NAME = r"[A-Za-zμ_][\w']*(?:-[\w']+)*'*"
TOKEN = re.compile(NAME)
LEADS = r"(?:abbrev |unfoldable |pub |opaque )*"
HEAD = re.compile(rf"\s*(?:let |module |where )?{LEADS}({NAME})(?:\s+[({{][^:]*[)}}])?\s*:(?:\s+(.*))?$")
RECORD = re.compile(rf"\s*{LEADS}(?:record|data) ({NAME})")
LOCAL = re.compile(rf"\blet ({NAME})\s*[:=]")
BOUND = re.compile(rf"[({{]((?:{NAME} )+): ")
PARTED = re.compile(r"(?:let|λ) \(([^)]*)\)")
ALIAS = re.compile(rf"\bas ({NAME})")
# A name that would fall together with a type of the code.
APART = {"Tie-break": "IsTieBreak"}
MADE = re.compile(r"\bgoal\.$|\bgiven\.$")
SKIPPED = re.compile(r'--[^\n]*|//[^\n]*|"(?:\\.|[^"\\\n])*"|use [\w.+]+\.(?:Goals|Given)\.\{[^}]*\}')


def sources():
    for folder, below, files in os.walk("crates"):
        below[:] = sorted(b for b in below if b != "out")
        for name in sorted(files):
            if name.endswith((".antt", ".rt")):
                yield os.path.join(folder, name)


def own_names(text, antt):
    plain = SKIPPED.sub("", text)
    found = set(ALIAS.findall(plain))
    if not antt:
        return found
    for line in plain.split("\n"):
        head = HEAD.match(line)
        if head and not (head[2] or "").startswith(("goal.", "given.")):
            found.add(head[1])
    found.update(RECORD.findall(plain))
    found.update(LOCAL.findall(plain))
    for names in BOUND.findall(plain):
        found.update(names.split())
    for names in PARTED.findall(plain):
        found.update(TOKEN.findall(names))
    return found


def spelled(name):
    if name in APART:
        return APART[name]
    if name[0].isupper():
        return "".join(part[:1].upper() + part[1:] for part in re.split("[-_]", name))
    return name.replace("-", "_")


def imported(text, crates):
    """The names that a file takes from outside the repository."""
    for path, names in re.findall(r"use ([\w.+']+)\.\{([^}]*)\}", text):
        if not any(path.startswith(f"Rattle.{crate}.") for crate in crates):
            for name in names.split(","):
                yield name.strip().split(" as ")[0]


def respell(text, names):
    out, at = [], 0

    def turned(piece):
        def one(m):
            if MADE.search(piece[: m.start()][-8:]):
                return m[0]
            return spelled(m[0]) if m[0] in names else m[0]

        return TOKEN.sub(one, piece)

    for skip in SKIPPED.finditer(text):
        out += [turned(text[at : skip.start()]), skip[0]]
        at = skip.end()
    return "".join(out) + turned(text[at:])


def main():
    texts = {path: open(path, encoding="utf-8").read() for path in sources()}
    crates = os.listdir("crates")
    names, others = set(), set()
    for path, text in texts.items():
        names |= own_names(text, path.endswith(".antt"))
        others |= set(imported(text, crates))
    names = {name for name in names if "-" in name} - others
    tokens = {t for text in texts.values() for t in TOKEN.findall(SKIPPED.sub("", text))}
    for name in sorted(names):
        if spelled(name) in tokens:
            print(f"look: {name} becomes {spelled(name)}, which is a name already")
    for path, text in texts.items():
        new = respell(text, names)
        if new != text:
            open(path, "w", encoding="utf-8").write(new)
    print(f"{len(names)} names")


if __name__ == "__main__":
    sys.exit(main())
