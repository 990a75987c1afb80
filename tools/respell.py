#!/usr/bin/env python3
"""Brings the repository's own definitions, fields and lemmas to the spelling of today's library.

usage: python3 tools/respell.py [--list]      at the top of the repository, after the toolchain's port.py; once

A word that a file of specs/ or proofs/ declares is written in snake case (`leafWord` and `leaf-word` become `leaf_word`), and a fact that begins with a
capital in camel case (`Rows-fit` becomes `RowsFit`). Answers to goals keep the names that Rattle gives them, and so do functions of src/. A lemma that
would have a definition's name gets `_lem`. It stops, having changed nothing, where names would still fall together.
"""

import re
import sys
from pathlib import Path

DECLARED = re.compile(r"^\s*(?:abbrev |unfoldable )?(?:pub )?(?:abbrev |unfoldable )?((?:[^\s(){}:;,.@]+ )+):\s")
HEADED = re.compile(r"^\s*(?:pub )?(?:record|data|module) ([^\s(){}:;,]+)")
FOREIGN = re.compile(r"^\s*(?:pub )?(?:ghost )?use (?!Rattle\.(?:{})\.)([^;{{]*)\{{([^}}]*)\}}")
# Words of two modules that no file imports both.
APART = {"choice-of"}
# A name under which one file imports a word that has another word's spelling now.
ALIASES = {"told_of": "things_told_of"}
TOKEN = re.compile(r"[A-Za-z_][\w'-]*")


def files(*kinds):
    found = []
    for kind in kinds:
        found += Path("crates").glob(f"*/{kind}")
    return sorted(p for p in found if "out" not in p.parts)


def spelled(name):
    if name[0].isupper():
        return "".join(part[:1].upper() + part[1:] for part in re.split("[-_]", name))
    return re.sub(r"(?<=[a-z0-9'])([A-Z])", lambda m: "_" + m[1].lower(), name).replace("-", "_")


def declared(*kinds):
    names = set()
    for path in files(*kinds):
        for line in path.read_text().split("\n"):
            if re.search(r":\s*goal\.", line):
                continue
            m = DECLARED.match(line)
            if m:
                names.update(m[1].split())
            m = HEADED.match(line)
            if m:
                names.add(m[1])
    return {n for n in names if re.fullmatch(r"[A-Za-z][\w'-]*", n)}


def aliases():
    names = set()
    for path in files("specs/**/*.antt", "proofs/**/*.antt", "src/**/*.rt"):
        for line in path.read_text().split("\n"):
            if re.match(r"\s*(?:ghost )?use Rattle\.", line):
                names.update(re.findall(r" as ([a-z][\w'-]*)", line))
    return {n for n in names if re.fullmatch(r"[A-Za-z][\w'-]*", n)}


def imported():
    own = "|".join(sorted(p.name for p in Path("crates").iterdir()))
    foreign = re.compile(FOREIGN.pattern.format(own).replace("{{", "{").replace("}}", "}"))
    words = set()
    for path in files("specs/**/*.antt", "proofs/**/*.antt", "src/**/*.rt"):
        for line in path.read_text().split("\n"):
            m = foreign.match(line)
            if m and (path.suffix == ".antt" or "ghost use" in line):
                for word in m[2].split(","):
                    words.add(word.split(" as ")[0].strip())
    return words


def main():
    foreign = imported()
    defined = declared("specs/**/*.antt")
    lemmas = declared("proofs/**/*.antt") - defined
    defined |= aliases() - lemmas
    paths = files("specs/**/*.antt", "proofs/**/*.antt", "src/**/*.rt")
    texts = {p: p.read_text() for p in paths}
    renamed = dict(ALIASES)
    for name in sorted(defined | lemmas):
        if spelled(name) != name:
            if name in foreign:
                print(f"kept, a library has it too: {name}")
            else:
                renamed[name] = spelled(name)
    # a function's name, in camel case until now, is its own, and a lemma of that name gives way
    functions = {new for old, new in renamed.items() if "-" not in old}
    for name in sorted(lemmas):
        if renamed.get(name, name) in functions and ("-" in name or name not in renamed):
            renamed[name] = spelled(name) + "_lem"
    for name in sorted(lemmas):
        if "-" in name and name in renamed and spelled(name) in (defined | lemmas):
            renamed[name] = spelled(name) + "_lem"
    standing = {w for p, t in texts.items() if p.suffix == ".antt" and p.name != "Goals.antt" for w in TOKEN.findall(re.sub(r"(?m)^use Rattle\.\w+\.proofs\.[\w.+]*(Goals|Given)\b.*$", "", t))}
    wrong = []
    for old, new in renamed.items():
        twins = [o for o, n in renamed.items() if n == new and o != old]
        if old in APART:
            continue
        if twins or new in foreign or (new in standing - set(renamed) and new in defined | lemmas):
            wrong.append(f"{old} -> {new}: {twins or 'stands already'}")
        elif new in standing - set(renamed):
            print(f"look: {old} -> {new} stands already, as a variable or a function of src/")
    if "--list" in sys.argv or wrong:
        print("\n".join(sorted(wrong) if wrong else (f"{o} {n}" for o, n in sorted(renamed.items()))))
        raise SystemExit(1 if wrong else 0)
    count = 0
    for path, text in texts.items():
        new = TOKEN.sub(lambda m: renamed.get(m[0], m[0]), text)
        if new != text:
            path.write_text(new)
            count += 1
    print(f"{len(renamed)} names respelled in {count} files")


main()
