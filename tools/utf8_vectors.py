#!/usr/bin/env python3
"""Prints the text lines of crates/trials/stdin.

Each expected answer is that of Python's own strict UTF-8 decoder.
"""

TAIL = (0x80, 0xBF)

# The rows of Table 3-7 of the Unicode Standard, as the first and last byte at each place.
ROWS = [
    [(0x00, 0x7F)],
    [(0xC2, 0xDF), TAIL],
    [(0xE0, 0xE0), (0xA0, 0xBF), TAIL],
    [(0xE1, 0xEC), TAIL, TAIL],
    [(0xED, 0xED), (0x80, 0x9F), TAIL],
    [(0xEE, 0xEF), TAIL, TAIL],
    [(0xF0, 0xF0), (0x90, 0xBF), TAIL, TAIL],
    [(0xF1, 0xF3), TAIL, TAIL, TAIL],
    [(0xF4, 0xF4), (0x80, 0x8F), TAIL, TAIL],
]

TEXTS = [
    "plain words, and a tab\tand a line\n",
    "Grüße, façade, naïve, Łódź, İstanbul",
    "Ελληνικά και Русский",
    "עברית العربية فارسی",
    "हिन्दी ไทย ქართული አማርኛ",
    "日本語 中文 한국어",
    "𝄞 𐍈 𠀀 👩‍👩‍👧‍👦 🏳️‍🌈",
    "e\u0301 a\u0308\u0323 \u200f\u202e",
    "\ufeffa mark of byte order in front",
    "\x00\x01\x1f\x7f\x80\x9f\xa0",
    "\ufdd0\ufffe\uffff\U0001fffe\U0010ffff",
    "\ud7ff\ue000\ufffd",
]


def answer(data):
    try:
        data.decode("utf-8")
    except UnicodeDecodeError:
        return "no"
    return "yes"


def group(name, cases):
    print(f"# Text: {name}.")
    for data in dict.fromkeys(cases):
        print(f"text {data.hex() or '-'} = {answer(data)}")


def ends():
    for row in ROWS:
        for k in (0, 1):
            yield bytes(span[k] for span in row)


def around_ends():
    for row in ROWS:
        for k in (0, 1):
            for i, (low, high) in enumerate(row):
                for b in (low - 1, low, high, high + 1):
                    if 0 <= b <= 255:
                        bytes_ = [span[k] for span in row]
                        bytes_[i] = b
                        yield bytes(bytes_)


def cut_short():
    for whole in ends():
        for n in range(1, len(whole)):
            part = whole[:n]
            yield part
            yield part + b"A"
            yield part + whole
            yield b"seven b" + part
            yield b"eight by" + part


def one_too_many():
    for whole in ends():
        yield whole + b"\x80"
        yield whole + b"\xbf" + b"A"


def leads():
    for lead in range(0x80, 0x100):
        yield bytes([lead])
        yield bytes([lead, 0x80])
        yield bytes([lead, 0xBF, 0xBF])
        yield bytes([lead, 0x90, 0x80, 0x80])


def overlong():
    for text in ("c080", "c1bf", "e08080", "e09fbf", "f0808080", "f08fbfbf", "f8808080af", "fc80808080af"):
        yield bytes.fromhex(text)


def surrogates():
    for text in ("eda080", "edadbf", "edaebf", "edafbf", "edb080", "edbe80", "edbfbf", "eda080edb080", "edafbfedbfbf"):
        yield bytes.fromhex(text)


def too_high():
    for text in ("f4908080", "f7bfbfbf", "f8888080", "fbbfbfbfbf", "fdbfbfbfbfbf", "fe", "ff", "fefeffff"):
        yield bytes.fromhex(text)


def runs(middle):
    for n in (7, 8, 9, 15, 16, 17):
        run = bytes(ord("a") + i for i in range(n))
        for i in range(n):
            yield run[:i] + middle + run[i + 1 :]


def whole_runs():
    for n in range(34):
        yield bytes(ord("A") + i for i in range(n))


def texts():
    for text in TEXTS:
        yield text.encode("utf-8")
    yield "\n".join(TEXTS).encode("utf-8")


def broken_texts():
    for text in TEXTS[1:]:
        data = text.encode("utf-8")
        first = next(i for i, b in enumerate(data) if b >= 0x80)
        yield data[: first + 1]
        yield data[:first] + data[first + 1 :]
        yield data[: first + 1] + data[first + 2 :]
        yield data[:first] + b"\xff" + data[first:]
        yield data[first + 1 :]
    for text in TEXTS:
        yield text.encode("utf-16-le")
    yield "Grüße".encode("latin-1")


if __name__ == "__main__":
    print("# What follows is printed by tools/utf8_vectors.py; the answers are those of Python's own decoder.")
    group("both ends of each row of the table of well-formed sequences", ends())
    group("one below, at and above both ends of each place of each row", around_ends())
    group("sequences that are cut short, at the end, before a letter and before a whole one", cut_short())
    group("a continuation byte too many", one_too_many())
    group("every byte from 80 on as a lead, alone and with one, two or three bytes after it", leads())
    group("forms longer than needed", overlong())
    group("surrogates", surrogates())
    group("above 10FFFF", too_high())
    group("runs of ASCII", whole_runs())
    group("runs of ASCII with a lone continuation byte at each place", runs(b"\x80"))
    group("runs of ASCII with a byte that never stands in a text at each place", runs(b"\xff"))
    group("runs of ASCII with a sequence of two bytes at each place", runs(b"\xc3\xa9"))
    group("runs of ASCII with a sequence of four bytes at each place", runs(b"\xf0\x9f\x98\x80"))
    group("several scripts", texts())
    group("the same with a byte cut off, dropped or put in, and in other encodings", broken_texts())
