"""Counts, in the sources of every crate, the lines that look like an older form of the language.

    python3 tools/places.py [-v] [COMMIT]

Prints for each of seven points how many lines each of its patterns meets; with -v the lines too. With a commit, the sources are
those of that commit. A pattern meets more than what is meant (a length is a number too), so docs/DESIGN-PASS.md says which of the
lines are places.
"""

import re
import subprocess
import sys

POINTS = {
    1: [
        ("number as a case", r"^\s*(\d+ \| )*\d+ (@ |\.\.|=>)|^\s*class @|=> \d+,"),
        ("constant that is a code", r"^\s*(pub )?const [A-Z_0-9]+: u(8|32) ="),
        ("number in a field that names a kind", r"\bkind: \d+|\.kind [!=]="),
        ("number, or a flag, as an answer's error or sort", r"-> Result<[^>]*, u\d+>|-> Result<bool|Err\(\d+\)"),
        ("flag in a struct", r"^\s*(pub(\(crate\))? )?[a-z_]+: bool,"),
        ("number or value that stands for nothing", r"\bnone\(|\bwithin == 0|\.left (==|>) 0"),
    ],
    2: [
        ("halves of a word", r"0x1_0000_0000|4_294_967_296|1 << 32|2 \^ 32 \+|fn (low|high|split|joined)\b"),
        ("number of a width", r"fn number(32|64)"),
        ("same name in two crates or files", None),
        ("blank row", r"const [A-Z_]+: Row ="),
        ("spot of the outermost pod", r"Spot \{ place: 0, depth: 1 \}"),
        ("hands on what a tour answers", r"Err\(number\) =>|Err\(Stop::"),
    ],
    3: [
        ("loop over a range", r"\bfor \w+ in [\w.()]+\.\."),
        ("loop by hand", r"\bwhile\b|\bloop \{"),
        ("index moved by hand", r"\b(self\.)?(at|i|len|count|rest|left) (\+=|-=) 1|self\.rows\[self\.at\]|\brest = left;"),
    ],
    4: [
        ("conversion by hand", r"fn (from_\w+|number|sort|type_number|named)\("),
        ("refusal printed by hand", r"refused \{number\}"),
        ("comparison of numbers of kinds", r"type_number\(\) [!=]= "),
    ],
    5: [
        ("requires", r"^\s*requires "),
        ("cue shut", r"if !self\.opened"),
        ("bytes, place and length together", r"bytes: &'?\w*\s?\[u8\], at: usize"),
        ("length, rest and spot together", r"len: usize,.* rest: &\[u8\], spot: Spot|kind: Kind, rest: &\[u8\], spot"),
        ("bytes and row together", r"bytes: &\[u8\], row: Row"),
    ],
    6: [
        ("buffer of a fixed length", r"\[[\w:()]+; \d+\]"),
        ("length or count beside", r"^\s*(pub(\(crate\))? )?(len|count|at|within): (usize|u32),"),
    ],
    7: [
        ("closure, function pointer or dyn", r"\bdyn |\bfn\(|impl Fn|\|\w*\| "),
    ],
}


def files(commit):
    if commit is None:
        names = subprocess.run(["git", "ls-files", "crates/*/src/*.rt"], capture_output=True, text=True, check=True).stdout.split()
        return {name: open(name, encoding="utf-8").read() for name in names}
    listed = subprocess.run(["git", "ls-tree", "-r", "--name-only", commit, "crates"], capture_output=True, text=True, check=True).stdout.split()
    return {
        name: subprocess.run(["git", "show", f"{commit}:{name}"], capture_output=True, text=True, check=True).stdout
        for name in listed
        if "/src/" in name and name.endswith(".rt")
    }


def same_names(texts):
    """Functions and constants of the same name in two files that are not methods of a trait."""
    seen = {}
    for name, text in texts.items():
        for line in text.splitlines():
            found = re.match(r"(?:pub )?(?:fn|const) (\w+)", line)
            if found and found.group(1) != "main":
                seen.setdefault(found.group(1), []).append(f"{name}: {line.strip()}")
    return [line for lines in seen.values() if len(lines) > 1 for line in lines]


def main():
    words = [w for w in sys.argv[1:] if w != "-v"]
    texts = files(words[0] if words else None)
    for point, patterns in POINTS.items():
        print(f"point {point}")
        for what, pattern in patterns:
            if pattern is None:
                lines = same_names(texts)
            else:
                lines = [
                    f"{name}:{at}: {line.strip()}"
                    for name, text in texts.items()
                    for at, line in enumerate(text.splitlines(), 1)
                    if re.search(pattern, line.split("//")[0])
                ]
            print(f"  {len(lines):4} {what}")
            if "-v" in sys.argv:
                for line in lines:
                    print(f"         {line}")


main()
