"""Writes the vectors of check_job: the files in data/, their names in args and their answers in stdout.

Run `python3 generate.py`. Each answer is stated here from document 01 and document 02, 2026-01 to 2026-03: the cause by hand,
the offset as the length of what stands before the faulty line. Nothing is written where reader.py, an independent reader,
answers otherwise. Ribbons are panes with four edges that are more than three times as long as wide, along w or along h. House
panes have a wind class and a zone, on a `Q` line of the pane part.
"""
import collections
import itertools
import pathlib
import shutil
import sys

sys.dont_write_bytecode = True
import reader

CRATE = pathlib.Path(__file__).resolve().parent.parent
VECTORS = {}


def line(letter, *numbers):
    return " ".join([letter, *map(str, numbers)]).encode() + b"\n"


def glass(id=500, kind=1, thick=10, w=2400, h=3600, two=17976, four=20130, stock=1):
    return line("G", id, kind, thick, w, h, two, four, stock)


def pane(id=600, edges=4, angle=30, awning=0, top=3000, w=900, h=1500, down=60, up=95):
    return line("P", id, edges, angle, awning, top, w, h, down, up)


def house(id=600, edges=4, angle=30, awning=0, top=3000, w=900, h=1500, wind=2, zone=1):
    """A pane by its wind class and zone."""
    return line("Q", id, edges, angle, awning, top, w, h, wind, zone)


def mixed(id):
    """A house pane of an odd id, or another pane of an even one."""
    return house(id) if id % 2 else pane(id)


def ribbon(id):
    """A ribbon four times as long as wide, of any id up to 1250."""
    return pane(id, w=id, h=4 * id)


def many(make, count):
    return b"".join(make(id) for id in range(1, count + 1))


def trailer(glass_at, pane_at):
    return b"T %05d %05d\n" % (glass_at, pane_at)


NOTES = b"Fern Street 12, canopy over the entrance\n"
# the lines of the glass part, and both of the pane part
MAKE = {"glass": glass, "pane": pane, "house": house}


def job(glasses, panes, notes=NOTES):
    return notes + glasses + panes + trailer(len(notes), len(notes + glasses))


def put(name, answer, file):
    name += ".job"
    if name in VECTORS:
        raise SystemExit(f"{name}: twice")
    if reader.check(file) != answer:
        raise SystemExit(f"{name}: stated {answer}, but reader.py answers {reader.check(file)}")
    VECTORS[name] = answer, file


def accepted(name, glasses, panes, file):
    put(name, f"accepted {glasses} {panes}", file)


def refused(name, cause, before, file):
    """Refused at the offset behind the bytes `before`."""
    if not file.startswith(before):
        raise SystemExit(f"{name}: the file does not begin so")
    put(name, f"refused {cause} {len(before)}", file)


def good(part, name, line):
    """A job with this line between two others of its part."""
    if part == "glass":
        accepted(name, 3, 1, job(glass(701) + line + glass(702), pane(601)))
    else:
        accepted(name, 1, 3, job(glass(501), pane(701) + line + pane(702)))


def bad(part, name, cause, line, lines=None):
    """A job refused for this line, which stands behind `lines` and before one more of its part."""
    if lines is None:
        lines = MAKE[part](701) + MAKE[part](702)
    if part == "glass":
        refused(name, cause, NOTES + lines, job(lines + line + glass(703), pane(601)))
    else:
        refused(name, cause, NOTES + glass(501) + lines, job(glass(501), lines + line + pane(703)))


def judged(part, name, cause, line):
    """A job with this line, refused for it where there is a cause, and accepted where that is 0."""
    if cause:
        bad(part, name, cause, line)
    else:
        good(part, name, line)


def paper_jobs():
    glasses = glass(9, 1, 12, 2400, 3600, 21304, 23857, 1) + glass(7, 1, 10, 2400, 3600, 17976, 20130, 1)
    panes = pane(1, 4, 30, 0, 3000, 900, 1500, 60, 95) + pane(2, 4, 10, 0, 3000, 500, 1000, 60, 95)
    accepted("job-of-the-paper", 2, 2, glasses + panes + b"T 00000 00066\n")
    accepted("job-of-the-paper-with-notes", 2, 2, job(glasses, panes))
    accepted("job-of-the-paper-with-panes-first-in-notes", 2, 2, job(glasses, panes, panes))
    accepted("trailer-alone", 0, 0, b"T 00000 00000\n")


def sizes():
    whole = job(glass(), pane(), b"")
    short = b"T 00000 00000"
    refused("no-bytes", 1, b"", b"")
    refused("one-byte", 1, b"", b"\n")
    refused("thirteen-bytes", 1, b"", b"0123456789012")
    refused("thirteen-bytes-of-a-trailer", 1, b"", short)
    refused("thirteen-bytes-of-a-trailer-with-newline", 1, b"", b"T 0000 00000\n")
    refused("fourteen-bytes-no-trailer", 2, b"", short + b" ")
    refused("fourteen-zero-bytes", 2, b"", bytes(14))
    refused("fifteen-bytes-no-trailer", 2, b"T", b"T" + short + b" ")
    accepted("fifteen-bytes", 0, 0, b"\n" + trailer(1, 1))
    for name, size in ("most-bytes", 65535), ("one-byte-under-the-most", 65534):
        accepted(name, 1, 1, job(glass(), pane(), bytes(size - len(whole))))
    refused("one-byte-over-the-most", 1, b"", job(glass(), pane(), bytes(65536 - len(whole))))
    refused("most-bytes-and-a-newline-more", 1, b"", job(glass(), pane(), bytes(65535 - len(whole))) + b"\n")
    refused("far-over-the-most", 1, b"", bytes(99986) + trailer(0, 0))
    refused("most-bytes-no-trailer", 2, bytes(65521), bytes(65535))
    notes = bytes(65521 - len(pane()))
    refused("most-bytes-last-line-faulty", 4, notes, job(b"", pane().lower(), notes))


# a number of a line, its lowest value and the cause against one below it, its highest and the cause against one above
PANE_LIMITS = [
    ("id", 1, 5, 9999, 5), ("edges", 2, 5, 4, 5), ("angle", 0, 4, 74, 5), ("awning", 0, 4, 1, 5), ("top", 0, 4, 99999, 4),
    ("w", 1, 5, 5000, 5), ("h", 1, 5, 5000, 5),
]
LIMITS = {
    "glass": [
        ("id", 1, 5, 9999, 5), ("kind", 1, 5, 4, 5), ("thick", 6, 5, 12, 5), ("w", 1, 5, 9999, 5), ("h", 1, 5, 9999, 5),
        ("two", 1, 5, 99999, 4), ("four", 1, 5, 99999, 4), ("stock", 0, 4, 999, 5),
    ],
    "pane": [*PANE_LIMITS, ("down", 0, 4, 1000, 5), ("up", 0, 4, 1000, 5)],
    "house": [*PANE_LIMITS, ("wind", 1, 5, 10, 5), ("zone", 1, 5, 2, 5)],
}
BETWEEN = [
    ("glass", "kind", 2, 0), ("glass", "kind", 3, 0), ("glass", "thick", 7, 5), ("glass", "thick", 8, 0),
    ("glass", "thick", 9, 5), ("glass", "thick", 10, 0), ("glass", "thick", 11, 5), ("glass", "stock", 1, 0),
    ("glass", "stock", 998, 0), ("pane", "edges", 3, 5), ("pane", "edges", 0, 5), ("pane", "edges", 24, 5),
    ("pane", "angle", 45, 0), ("pane", "angle", 90, 5), ("pane", "awning", 9, 5), ("pane", "top", 2999, 0),
    ("pane", "down", 99999, 5), ("pane", "up", 1, 0), ("house", "edges", 3, 5), ("house", "wind", 6, 0),
    ("house", "wind", 7, 0), ("house", "wind", 12, 5), ("house", "wind", 100, 5), ("house", "wind", 99999, 5),
    ("house", "zone", 4, 5), ("house", "zone", 99999, 5),
    # allowed but for a multiple of 256 or 65536
    ("glass", "id", 65537, 5), ("glass", "kind", 257, 5), ("glass", "kind", 65537, 5), ("glass", "thick", 266, 5),
    ("glass", "w", 67936, 5), ("glass", "stock", 65537, 5), ("pane", "id", 65537, 5), ("pane", "edges", 260, 5),
    ("pane", "angle", 286, 5), ("pane", "awning", 256, 5), ("pane", "awning", 65537, 5), ("pane", "w", 66436, 5),
    ("pane", "h", 67036, 5), ("pane", "up", 65536, 5), ("house", "wind", 257, 5), ("house", "wind", 266, 5),
    ("house", "wind", 65537, 5), ("house", "wind", 65546, 5), ("house", "zone", 257, 5), ("house", "zone", 258, 5),
    ("house", "zone", 65537, 5), ("house", "zone", 65538, 5),
]


def limits():
    for part, numbers in LIMITS.items():
        for place, (number, lowest, below, highest, above) in enumerate(numbers):
            # with two edges; sides() and order() have such panes with four
            sides = {"edges": 2} if part != "glass" and number in ("w", "h") else {}
            name = f"{part}-{number}"
            good(part, f"{name}-lowest", MAKE[part](**{number: lowest}, **sides))
            good(part, f"{name}-highest", MAKE[part](**{number: highest}, **sides))
            bad(part, f"{name}-one-below", below, MAKE[part](**{number: lowest - 1}, **sides))
            bad(part, f"{name}-one-above", above, MAKE[part](**{number: highest + 1}, **sides))
            words = MAKE[part]().split()
            bad(part, f"{name}-missing", 4, b" ".join(words[:place + 1] + words[place + 2:]) + b"\n")
    for part, number, value, cause in BETWEEN:
        judged(part, f"{part}-{number}-{spelled(value)}", cause, MAKE[part](**{number: value}))


def spelled(value):
    return "zero one two three four five six seven eight nine".split()[value] if value < 10 else str(value)


# what stands where a number should
NOT_NUMBERS = {
    "two-zeros": "00", "zero-in-front": "01", "zero-in-front-of-five-digits": "012345", "six-digits": "100000",
    "six-digits-with-zeros-in-front": "000001", "one-more-than-32-bits": "4294967297",
    "one-more-than-64-bits": "18446744073709551617", "plus-sign": "+1", "minus-sign": "-1", "minus-zero": "-0",
    "decimal-point": "1.0", "comma-behind": "1,", "letter": "x", "letter-behind": "1a", "letter-o-for-zero": "1O",
    "hexadecimal": "0x1", "byte-before-zero": "/", "byte-after-nine": ":", "wide-digit": "\uff11", "zero-byte": "\0",
    "nothing": "", "apostrophe": "1'000",
}
# a faulty line made of a good one
NOT_LINES = {
    "letter-lower-case": lambda s: s[:1].lower() + s[1:],
    "letter-missing": lambda s: s[2:],
    "letter-and-space-only": lambda s: s[:2] + b"\n",
    "letter-only": lambda s: s[:1] + b"\n",
    "letter-twice": lambda s: s[:1] + s,
    "letter-with-high-bit": lambda s: bytes([s[0] + 128]) + s[1:],
    "space-in-front": lambda s: b" " + s,
    "space-at-end": lambda s: s[:-1] + b" \n",
    "space-missing-behind-letter": lambda s: s[:1] + s[2:],
    "two-spaces-behind-letter": lambda s: s.replace(b" ", b"  ", 1),
    "two-spaces-before-last-number": lambda s: b"  ".join(s.rsplit(b" ", 1)),
    "tab-behind-letter": lambda s: s.replace(b" ", b"\t", 1),
    "tab-before-last-number": lambda s: b"\t".join(s.rsplit(b" ", 1)),
    "tab-at-end": lambda s: s[:-1] + b"\t\n",
    "carriage-return-at-end": lambda s: s[:-1] + b"\r\n",
    "carriage-return-for-newline": lambda s: s[:-1] + b"\r",
    "newline-in-the-middle": lambda s: b"\n".join(s.rsplit(b" ", 1)),
    "newline-missing": lambda s: s[:-1],
    "zero-byte-for-newline": lambda s: s[:-1] + b"\0",
    "zero-byte-at-end": lambda s: s[:-1] + b"\0\n",
    "one-number-too-many": lambda s: s[:-1] + b" 1\n",
    "two-numbers-too-many": lambda s: s[:-1] + b" 1 1\n",
    "byte-order-mark": lambda s: b"\xef\xbb\xbf" + s,
    "empty-line": lambda s: b"\n" + s,
    "line-of-spaces": lambda s: b"   \n" + s,
    "comment": lambda s: b"# two sheets left\n" + s,
    "trailer-in-part": lambda s: b"T 00000 00000\n" + s,
}


# the last number of a line, and those before it that are also tried without being numbers
SPELLED = {"glass": ("stock", ["id"]), "pane": ("up", ["id"]), "house": ("zone", ["id", "wind"])}


def forms():
    for part, make in MAKE.items():
        last, others = SPELLED[part]
        for name, text in NOT_NUMBERS.items():
            bad(part, f"{part}-{last}-{name}", 4, make(**{last: text}))
            for other in others if "digit" in name or "zero" in name else []:
                bad(part, f"{part}-{other}-{name}", 4, make(**{other: text}))
        for name, change in NOT_LINES.items():
            bad(part, f"{part}-{name}", 4, change(make()))
        bad(part, f"{part}-first-line-with-space-at-end", 4, make()[:-1] + b" \n", b"")
    bad("glass", "glass-first-line-empty", 4, b"\n", b"")
    bad("pane", "pane-first-line-empty", 4, b"\n", b"")
    lines = glass(501) + glass(502)
    refused("glass-part-ends-in-empty-line", 4, NOTES + lines, job(lines + b"\n", pane()))
    refused("pane-part-ends-in-empty-line", 4, NOTES + lines + pane(), job(lines, pane() + b"\n"))
    refused("pane-part-is-one-newline", 4, NOTES + lines, job(lines, b"\n"))
    refused("glass-part-is-one-newline", 4, NOTES, job(b"\n", pane()))


def letters():
    """Other letters in place of a line's own. That of the one pane line makes a line of the other."""
    for part, before, after in ("glass", 4, 4), ("pane", 4, 5), ("house", 0, 4):
        line = MAKE[part]()
        judged(part, f"{part}-letter-one-before", before, bytes([line[0] - 1]) + line[1:])
        judged(part, f"{part}-letter-one-after", after, bytes([line[0] + 1]) + line[1:])
    for letter in "CNOp":
        bad("house", f"house-with-letter-{letter}", 4, letter.encode() + house()[1:])
    bad("house", "house-with-both-letters", 4, b"P" + house())
    bad("house", "house-with-letter-of-a-pane-behind", 4, house()[:1] + pane())
    for part, letter in ("pane", b"P"), ("house", b"Q"):
        bad("glass", f"{part}-line-in-glass-part", 4, MAKE[part]())
        bad("glass", f"{part}-line-first-in-glass-part", 4, MAKE[part](), b"")
        bad("glass", f"glass-with-letter-of-a-{part}", 4, letter + glass()[1:])
        bad("glass", f"glass-with-nine-numbers-and-letter-of-a-{part}", 4, letter + glass()[1:-1] + b" 1\n")
        bad(part, f"{part}-with-letter-of-a-glass", 4, b"G" + MAKE[part]()[1:])
    bad("pane", "glass-line-in-pane-part", 4, glass())
    bad("house", "glass-line-behind-houses", 4, glass())
    refused("house-line-alone-in-glass-part", 4, NOTES, job(house(), pane()))


# the last two numbers of a pane line, and the cause against them on that of a house pane
WINDS = [
    (1, 1, 0), (1, 2, 0), (10, 1, 0), (10, 2, 0), (1, 10, 5), (2, 10, 5), (10, 3, 5), (11, 2, 5), (11, 3, 5), (0, 0, 5),
    (44, 69, 5), (60, 95, 5), (422, 998, 5), (1000, 1000, 5),
]


def winds():
    """The same two numbers as class and zone, and as pressures. A class has no other name."""
    for first, second, cause in WINDS:
        judged("house", f"house-wind-{first}-zone-{second}", cause, house(wind=first, zone=second))
        good("pane", f"pane-down-{first}-up-{second}", pane(down=first, up=second))
    for number, text in ("wind", "N2"), ("wind", "C4"), ("wind", "02"), ("wind", "010"), ("wind", "1 0"), ("zone", "02"):
        bad("house", f"house-{number}-spelled-{text.replace(' ', '-')}", 4, house(**{number: text}))


def mixes():
    """Both lines in one part, in any order."""
    every = enumerate(itertools.product(range(1, 11), (1, 2)), 1)
    lines = b"".join(house(id, wind=wind, zone=zone) for id, (wind, zone) in every)
    accepted("houses-of-each-class-and-zone", 1, 20, job(glass(), lines))
    for order in "Q", "QQQ", "QPP", "PPQ", "PQP", "QPQ", "QQQPPP", "PPPQQQ", "PQPQPQPQ", "QPQPQPQP", "PPQQPPQQ":
        lines = b"".join(pane(id) if letter == "P" else house(id) for id, letter in enumerate(order, 1))
        accepted(f"panes-{order.lower()}", 1, len(order), job(glass(), lines))
    accepted("house-without-glasses", 0, 1, job(b"", house()))
    accepted("house-without-glasses-or-notes", 0, 1, job(b"", house(), b""))
    sides = [(w, h, 4) for w, h in RIBBONS] + SIDES
    lines = b"".join(house(id, w=w, h=h, edges=edges) for id, (w, h, edges) in enumerate(sides, 1))
    accepted("houses-of-any-sides", 1, len(sides), job(glass(), lines))


def house_faults():
    """A class or a zone that is not allowed: alone in its part, on the first line, between others and on the last."""
    for name, fault in (
        ("wind-zero", house(wind=0)), ("wind-11", house(wind=11)), ("zone-zero", house(zone=0)), ("zone-three", house(zone=3)),
    ):
        for place, lines, behind in (
            ("alone", b"", b""), ("first", b"", pane(1) + house(2)), ("between", house(1) + pane(2), house(3) + pane(4)),
            ("last", pane(1) + house(2), b""),
        ):
            refused(f"house-{name}-{place}", 5, NOTES + glass() + lines, job(glass(), lines + fault + behind))


def missing_newlines():
    before, last, panes = NOTES + glass(501), glass(502), pane(601) + pane(602)
    cut = before + last[:-1]
    refused("glass-part-without-last-newline", 4, before, cut + panes + trailer(len(NOTES), len(cut)))
    refused("glass-part-without-last-newline-newline-next", 4, before, cut + b"\n" + panes + trailer(len(NOTES), len(cut)))
    refused("glass-part-without-last-newline-pane-part-is-newline", 4, before, cut + b"\n" + trailer(len(NOTES), len(cut)))
    refused("glass-part-cut-within-last-number", 4, before, before + last + panes + trailer(len(NOTES), len(cut) - 1))
    refused("glass-part-without-any-newline", 4, NOTES, job(glass()[:-1], panes))
    refused("glass-part-is-a-letter", 4, NOTES, job(b"G", panes))
    refused("pane-part-without-last-newline", 4, before + pane(601), job(glass(501), panes[:-1]))
    refused("pane-part-without-any-newline", 4, before, job(glass(501), pane()[:-1]))
    refused("pane-part-is-a-letter", 4, before, job(glass(501), b"P"))
    refused("pane-part-without-newline-of-last-house", 4, before + pane(601), job(glass(501), pane(601) + house(602)[:-1]))
    refused("pane-part-without-newline-of-last-zone", 4, before + house(1), job(glass(501), house(1) + house(2, zone=3)[:-1]))
    refused("pane-part-of-a-house-without-newline", 4, before, job(glass(501), house()[:-1]))
    refused("pane-part-is-the-letter-of-a-house", 4, before, job(glass(501), b"Q"))


def offsets():
    glasses, panes = glass(501) + glass(502), pane(601) + pane(602)
    body = NOTES + glasses + panes
    start, middle, end = len(NOTES), len(NOTES + glasses), len(body)
    for name, first, second in (
        ("glass-offset-one-over-pane-offset", middle + 1, middle), ("offsets-exchanged", middle, start),
        ("pane-offset-zero", start, 0), ("pane-offset-one-into-trailer", start, end + 1),
        ("both-offsets-one-into-trailer", end + 1, end + 1), ("glass-offset-into-trailer", end + 1, end),
        ("pane-offset-at-end-of-file", start, end + 14), ("pane-offset-beyond-file", start, 99999),
        ("both-offsets-beyond-file", 99999, 99999), ("glass-offset-beyond-file", 99999, middle),
        ("offset-over-sixteen-bits", start, 65536 + middle), ("offset-over-sixteen-bits-glass", 65536 + start, middle),
    ):
        refused(name, 3, body, body + trailer(first, second))
    accepted("both-offsets-at-trailer", 0, 0, body + trailer(end, end))
    accepted("both-offsets-at-panes", 0, 2, body + trailer(middle, middle))
    accepted("offsets-skip-first-glass", 1, 2, body + trailer(len(NOTES + glass()), middle))
    accepted("offsets-skip-first-pane-as-notes", 0, 1, body + trailer(end - len(pane()), end - len(pane())))
    accepted("empty-glass-part", 0, 2, job(b"", panes))
    accepted("empty-pane-part", 2, 0, job(glasses, b""))
    accepted("both-parts-empty", 0, 0, job(b"", b""))
    refused("glass-offset-one-early", 4, body[:start - 1], body + trailer(start - 1, middle))
    refused("glass-offset-one-late", 4, body[:start + 1], body + trailer(start + 1, middle))
    refused("glass-offset-in-notes", 4, b"", body + trailer(0, middle))
    refused("glass-offset-at-end-of-a-line", 4, body[:middle - 1], body + trailer(middle - 1, middle))
    refused("pane-offset-one-early", 4, NOTES + glass(501), body + trailer(start, middle - 1))
    refused("pane-offset-one-late", 4, body[:middle], body + trailer(start, middle + 1))
    refused("pane-offset-within-pane-line", 4, body[:middle], body + trailer(start, middle + 9))
    refused("pane-offset-after-first-pane", 4, body[:middle], body + trailer(start, middle + len(pane())))
    refused("pane-offset-at-trailer", 4, body[:middle], body + trailer(start, end))
    refused("pane-offset-at-glass-offset", 4, NOTES, body + trailer(start, start))
    refused("pane-offset-after-first-house", 4, NOTES + glass(), NOTES + glass() + house(1) + house(2)
            + trailer(start, len(NOTES + glass() + house(1))))
    refused("pane-offset-at-second-glass", 4, NOTES + glass(501), body + trailer(start, start + len(glass())))


# damaged trailers; vwxyz and VWXYZ stand for the digits of its two numbers
TRAILERS = {
    "letter-lower-case": "t vwxyz VWXYZ\n", "letter-wrong": "U vwxyz VWXYZ\n", "letter-missing": "vwxyz VWXYZ\n",
    "first-digit-missing": "T wxyz VWXYZ\n", "second-digit-missing": "T vwxyz WXYZ\n",
    "four-digits-and-a-space": "T wxyz  VWXYZ\n", "four-digits-and-a-space-at-end": "T vwxyz WXYZ \n",
    "space-and-four-digits": "T  wxyz VWXYZ\n", "six-digits-first": "T 0vwxyz VWXYZ\n",
    "six-digits-second": "T vwxyz 0VWXYZ\n", "six-and-four-digits": "T 0vwxyz WXYZ\n",
    "letter-for-digit": "T vwxyO VWXYZ\n", "letter-for-last-digit": "T vwxyz VWXYl\n",
    "byte-before-zero": "T /wxyz VWXYZ\n", "byte-after-nine": "T vwxyz :WXYZ\n",
    "four-digits-and-a-newline-more": "T wxyz VWXYZ\n\n", "four-digits-at-end-and-a-newline-more": "T vwxyz WXYZ\n\n",
    "without-digits": "T  \n" + "\0" * 10, "minus-sign": "T -wxyz VWXYZ\n", "plus-sign": "T vwxyz +WXYZ\n",
    "newline-missing": "T vwxyz VWXYZ", "carriage-return": "T vwxyz VWXYZ\r\n", "carriage-return-for-newline": "T vwxyz VWXYZ\r",
    "two-spaces-behind-letter": "T  vwxyz VWXYZ\n", "two-spaces-between": "T vwxyz  VWXYZ\n",
    "space-at-end": "T vwxyz VWXYZ \n", "space-for-newline": "T vwxyz VWXYZ ", "tab-behind-letter": "T\tvwxyz VWXYZ\n",
    "tab-between": "T vwxyz\tVWXYZ\n", "comma-between": "T vwxyz,VWXYZ\n", "newline-between": "T vwxyz\nVWXYZ\n",
    "newline-more": "T vwxyz VWXYZ\n\n", "third-number": "T vwxyz VWXYZ 0\n", "zero-byte-more": "T vwxyz VWXYZ\n\0",
    "followed-by-a-line": "T vwxyz VWXYZ\n" + glass().decode(), "missing": "",
}


def trailers():
    body = NOTES + glass() + pane()
    digits = str.maketrans("vwxyzVWXYZ", "%05d%05d" % (len(NOTES), len(NOTES + glass())))
    for name, end in TRAILERS.items():
        end = end.translate(digits).encode()
        refused(f"trailer-{name}", 2, (body + end)[:-14], body + end)
    whole = trailer(len(NOTES), len(NOTES + glass()))
    refused("trailer-letter-twice", 4, body, body + b"T" + whole)
    refused("trailer-space-in-front", 4, body, body + b" " + whole)
    refused("trailer-newline-in-front", 4, body, body + b"\n" + whole)
    refused("trailer-twice", 4, body, body + whole + whole)


# sides of a pane with so many edges that is no ribbon
SIDES = [
    (1000, 3000, 4), (3000, 1000, 4), (1000, 3001, 2), (3001, 1000, 2), (1, 1, 4), (1, 3, 4), (3, 1, 4), (1, 5000, 2),
    (5000, 1, 2), (1667, 5000, 4), (5000, 1667, 4), (5000, 5000, 4), (2, 6, 4), (334, 1000, 4),
]
# sides of a ribbon
RIBBONS = [
    (1000, 3001), (3001, 1000), (1, 4), (4, 1), (1, 5000), (5000, 1), (1666, 5000), (5000, 1666), (2, 7), (333, 1000),
    (1000, 333), (400, 2000), (2000, 400), (1, 1500), (5000, 1500), (900, 1), (900, 5000),
]
# the longer sides of example (c)
LENGTHS = (2000, 2001, 3000, 3001)


def sides():
    """A pane may be of any sides, with four edges as with two."""
    for w, h, edges in SIDES:
        good("pane", f"pane-{w}-by-{h}-{spelled(edges)}-edges", pane(w=w, h=h, edges=edges))
    for w, h in RIBBONS:
        panes = pane(701) + pane(702) + pane(w=w, h=h) + pane(703)
        accepted(f"pane-{w}-by-{h}-four-edges", 1, 4, job(glass(501), panes))
    accepted("sizes-of-example-c", 1, 4, job(glass(), b"".join(pane(length, w=1000, h=length) for length in LENGTHS)))
    accepted("sizes-of-example-c-turned", 1, 4, job(glass(), b"".join(pane(length, w=length, h=1000) for length in LENGTHS)))
    accepted("first-pane-a-ribbon", 1, 2, job(glass(501), pane(w=500, h=1501) + pane(703)))
    accepted("one-pane-a-ribbon", 1, 1, job(glass(), pane(w=1501, h=500)))
    accepted("ribbons-beside-long-panes-of-two-edges", 1, 4, job(
        glass(), pane(1, w=400, h=2000) + pane(2, 2, w=400, h=2000) + pane(3, w=2000, h=400) + pane(4, 2, w=2000, h=400)))
    accepted("glass-sheet-of-any-sides", 1, 1, job(glass(w=1, h=9999), pane()))


def ids():
    for part, make in MAKE.items():
        bad(part, f"{part}-id-repeated", 6, make(702))
        bad(part, f"{part}-id-of-first-line", 6, make(701))
        bad(part, f"{part}-id-repeated-on-second-line", 6, make(), make())
        bad(part, f"{part}-ids-repeated-in-turn", 6, make(701) + make(702))
        bad(part, f"{part}-id-lowest-repeated", 6, make(1), make(1) + make(2))
        bad(part, f"{part}-id-highest-repeated", 6, make(9999), make(9999))
    # on lines of both letters, also where they differ by nothing else
    bad("house", "house-id-of-a-pane", 6, house(702), pane(701) + pane(702))
    bad("house", "house-id-of-first-pane", 6, house(701), pane(701) + house(702) + pane(704))
    bad("house", "house-but-for-the-letter-a-pane", 6, house(wind=2, zone=1), pane(701) + pane(down=2, up=1))
    bad("pane", "pane-id-of-a-house", 6, pane(702), house(701) + house(702))
    bad("pane", "pane-id-of-first-house", 6, pane(701), house(701) + pane(702) + house(704))
    bad("pane", "pane-but-for-the-letter-a-house", 6, pane(down=2, up=1), house(701) + house(wind=2, zone=1))
    bad("house", "house-id-of-another-class-and-zone", 6, house(701, wind=9, zone=2))
    accepted("same-id-for-glass-and-pane", 1, 1, job(glass(77), pane(77)))
    accepted("same-id-for-glass-and-house", 1, 1, job(glass(77), house(77)))
    accepted("same-ids-for-glasses-and-panes", 64, 64, job(many(glass, 64), many(pane, 64)))
    accepted("same-ids-for-glasses-and-mixed-panes", 64, 64, job(many(glass, 64), many(mixed, 64)))
    accepted("ids-that-begin-alike", 3, 3, job(glass(1) + glass(11) + glass(111), pane(2) + pane(22) + pane(222)))
    apart = [1] + [1 + 2**bit for bit in range(14)]
    accepted("ids-one-bit-apart", len(apart), len(apart), job(b"".join(map(glass, apart)), b"".join(map(pane, apart))))
    accepted("ids-falling", 3, 3, job(glass(3) + glass(2) + glass(1), pane(3) + pane(2) + pane(1)))
    accepted("id-repeated-in-notes-only", 1, 1, job(glass(), pane(), glass() + pane()))
    accepted("id-repeated-by-a-house-in-notes-only", 1, 2, job(glass(), pane() + house(601), house() + pane(601)))
    lines = many(glass, 63)
    refused("glass-id-repeated-on-last-allowed-line", 6, NOTES + lines, job(lines + glass(1), pane()))
    lines = many(pane, 255)
    refused("pane-id-repeated-on-last-allowed-line", 6, NOTES + lines, job(b"", lines + pane(255)))


def counts():
    for part, make, most in ("glass", glass, 64), ("pane", pane, 256):
        lines = many(make, most)
        for name, line in (
            ("", make(most + 1)), ("-malformed", b"?\n"), ("-empty", b"\n"), ("-out-of-range", make(0)),
            ("-id-repeated", make(1)), ("-without-newline", make(most + 1)[:-1]), ("-one-byte", make(most + 1)[:1]),
        ):
            file = job(lines + line, b"") if part == "glass" else job(b"", lines + line)
            refused(f"{part}-line-{most + 1}{name}", 8, NOTES + lines, file)
        bad(part, f"{part}-line-{most}-malformed", 4, b"?\n" + make(9998), many(make, most - 1))
        bad(part, f"{part}-line-{most}-out-of-range", 5, make(10000) + make(9998), many(make, most - 1))
    bad("pane", "pane-line-257-a-ribbon", 8, pane(w=1, h=9), many(pane, 256))
    refused("pane-line-257-behind-ribbons", 8, NOTES + many(ribbon, 256), job(b"", many(ribbon, 257)))
    accepted("most-glasses", 64, 1, job(many(glass, 64), pane()))
    accepted("most-panes", 1, 256, job(glass(), many(pane, 256)))
    accepted("most-panes-all-ribbons", 1, 256, job(glass(), many(ribbon, 256)))
    accepted("most-glasses-and-panes", 64, 256, job(many(glass, 64), many(pane, 256)))
    accepted("one-glass-and-one-pane-under-the-most", 63, 255, job(many(glass, 63), many(pane, 255)))
    accepted("notes-with-more-glasses-than-the-most", 1, 1, job(glass(), pane(), many(glass, 80)))
    accepted("longest-lines", 64, 256, job(
        b"".join(glass(9900 + n, 4, 12, 9999, 9999, 99999, 99999, 999) for n in range(64)),
        b"".join(pane(9700 + n, 4, 74, 1, 99999, 5000, 5000, 1000, 1000) for n in range(256))))
    accepted("shortest-lines", 9, 9, job(
        b"".join(glass(n, 1, 6, 1, 1, 1, 1, 0) for n in range(1, 10)),
        b"".join(pane(n, 4, 0, 0, 0, 1, 1, 0, 0) for n in range(1, 10)), b""))


def house_counts():
    """As many pane lines as there may be, of one letter and of both, and one more."""
    panes, houses, both = many(pane, 256), many(house, 256), many(mixed, 256)
    accepted("most-panes-all-houses", 1, 256, job(glass(), houses))
    accepted("most-panes-mixed", 1, 256, job(glass(), both))
    for name, lines, line in (
        ("a-house-behind-houses", houses, house(257)), ("a-pane-behind-houses", houses, pane(257)),
        ("a-house-behind-panes", panes, house(257)), ("a-house-behind-both", both, house(257)),
        ("a-pane-behind-both", both, pane(257)), ("a-faulty-house", both, house(257, wind=11)),
        ("a-house-lower-case", both, house(257).lower()), ("a-house-of-a-known-id", both, house(2)),
    ):
        refused(f"pane-line-257-{name}", 8, NOTES + lines, job(b"", lines + line))
    bad("pane", "pane-line-256-a-faulty-house", 5, house(9998, zone=3), many(mixed, 255))
    bad("pane", "pane-line-256-a-house-of-a-known-id", 6, house(2), many(mixed, 255))
    glasses = many(glass, 64)
    refused("glass-line-65-a-house", 8, NOTES + glasses, job(glasses + house(), pane()))


def order():
    """The first cause of a line, and the first line with one. A ribbon is no cause."""
    lines = glass(501) + glass(502)
    bad("glass", "glass-form-and-value", 4, glass(kind=9, stock="01"))
    bad("pane", "pane-form-and-value", 4, pane(edges=3, up="01"))
    bad("glass", "glass-form-and-id-repeated", 4, glass(701)[:-1] + b" \n")
    bad("pane", "pane-form-and-id-repeated", 4, pane(701)[:-1] + b" \n")
    bad("pane", "ribbon-form", 4, pane(w=1, h=100, up="+5"))
    bad("glass", "glass-value-and-id-repeated", 5, glass(701, kind=5))
    bad("pane", "pane-value-and-id-repeated", 5, pane(701, angle=75))
    bad("pane", "pane-last-value-and-id-repeated", 5, pane(701, up=1001))
    bad("pane", "ribbon-h-one-above", 5, pane(w=1, h=5001))
    bad("pane", "ribbon-w-one-above", 5, pane(w=5001, h=1500))
    bad("pane", "ribbon-value", 5, pane(w=1, h=500, awning=2))
    bad("pane", "pane-zero-width-four-edges", 5, pane(w=0))
    bad("pane", "pane-zero-height-four-edges", 5, pane(h=0))
    bad("pane", "ribbon-value-and-id-repeated", 5, pane(701, w=1, h=500, top="99999", down=1001))
    bad("pane", "ribbon-id-repeated", 6, pane(702, w=500, h=1501))
    bad("glass", "glass-value-on-one-line-form-on-next", 5, glass(id=0) + b"G\n")
    behind_ribbon = pane(701) + pane(702) + pane(w=1, h=4)
    bad("pane", "ribbon-on-one-line-form-on-next", 4, b"P\n", behind_ribbon)
    bad("pane", "ribbon-on-one-line-value-on-next", 5, pane(601, angle=80), behind_ribbon)
    bad("pane", "ribbon-on-one-line-its-id-on-next", 6, pane(), behind_ribbon)
    bad("pane", "ribbon-twice", 6, pane(w=1, h=4), behind_ribbon)
    refused("ribbon-without-newline", 4, NOTES + lines + pane(601), job(lines, pane(601) + pane(w=1, h=4)[:-1]))
    bad("pane", "pane-id-repeated-on-one-line-value-on-next", 6, pane(701) + pane(angle=80))
    bad("pane", "pane-form-on-one-line-too-many-later", 4, b"P\n", many(pane, 3))
    for name, cause, fault in ("form", 4, b"G\n"), ("value", 5, glass(kind=0)), ("id-repeated", 6, glass(502)):
        for other, line in (
            ("pane-form", b"P\n"), ("pane-value", pane(edges=0)), ("ribbon", pane(w=1, h=4)), ("house-zone", house(zone=3)),
        ):
            refused(f"glass-{name}-before-{other}", cause, NOTES + lines, job(lines + fault, line))
    refused("glass-too-many-before-pane-form", 8, NOTES + many(glass, 64), job(many(glass, 65), b"P\n"))
    refused("glass-last-line-before-too-many-panes", 5, NOTES + lines, job(lines + glass(stock=1000), many(pane, 257)))
    bad("house", "house-form-and-value", 4, house(wind=11, zone="01"))
    bad("house", "house-value-and-newline-missing", 4, house(zone=3)[:-1])
    bad("house", "house-form-and-id-repeated", 4, house(701)[:-1] + b" \n")
    bad("house", "house-value-and-id-repeated", 5, house(701, angle=75))
    bad("house", "house-wind-and-id-repeated", 5, house(701, wind=11))
    bad("house", "house-zone-and-id-repeated", 5, house(701, zone=3))
    bad("house", "house-zone-and-id-of-a-pane", 5, house(702, zone=0), pane(701) + pane(702))
    bad("house", "house-pressures-and-id-of-a-pane", 5, house(702, wind=60, zone=95), pane(701) + pane(702))
    bad("house", "house-ribbon-and-zone", 5, house(w=1, h=500, zone=3))
    bad("house", "house-ribbon-and-id-repeated", 6, house(701, w=1, h=500))
    bad("house", "house-wind-on-one-line-form-on-next", 5, house(wind=11) + b"Q\n")
    bad("house", "house-form-on-one-line-wind-on-next", 4, b"Q\n" + house(wind=11))
    bad("house", "house-id-repeated-on-one-line-zone-on-next", 6, house(701) + house(zone=3))
    bad("house", "house-zone-on-one-line-id-repeated-on-next", 5, house(zone=3) + house(701))
    bad("pane", "house-zone-on-one-line-pane-value-on-next", 5, house(zone=3) + pane(angle=80))
    bad("pane", "pane-value-on-one-line-house-zone-on-next", 5, pane(angle=80) + house(zone=3))
    body = NOTES + b"G\n" + b"P\n"
    refused("offsets-before-form", 3, body, body + trailer(len(NOTES) + 2, len(NOTES)))
    refused("trailer-before-form", 2, body[:-1], body + trailer(len(NOTES), len(NOTES) + 2)[:-1])
    refused("length-before-trailer", 1, b"", bytes(65536))
    refused("trailer-before-offsets", 2, body, body + b"t 99999 00000\n")


def notes():
    faulty = b"G 0 0 0\n" + glass() * 2 + pane(w=0)
    for name, text in {
        "none": b"", "of-every-byte": bytes(range(256)), "of-every-byte-falling": bytes(reversed(range(256))),
        "like-lines": glass() + pane(), "like-faulty-lines": faulty, "like-a-trailer": trailer(0, 0),
        "like-lines-of-houses": house() + house() + house(wind=0),
        "like-a-job": job(glass(1) + glass(2), pane(), b""), "like-a-trailer-without-newline": trailer(0, 0)[:-1],
        "without-newline": b"call before noon", "one-newline": b"\n", "of-zero-bytes": bytes(500), "ending-in-a-letter": b"G",
        "with-carriage-returns": b"Fern Street 12\r\n\r\n", "of-newlines": b"\n" * 99,
    }.items():
        accepted(f"notes-{name}", 1, 1, job(glass(), pane(), text))
    every = bytes(range(256))
    refused("glass-of-every-byte", 4, NOTES, job(every, b""))
    refused("pane-of-every-byte", 4, NOTES + glass(), job(glass(), every))
    refused("glass-value-behind-notes-of-every-byte", 5, every + glass(1), job(glass(1) + glass(0), pane(), every))
    refused("pane-value-behind-notes-of-every-byte", 5, every + pane(1), job(b"", pane(1) + pane(0), every))
    refused("glass-value-behind-no-notes", 5, b"", job(glass(0), pane(), b""))
    refused("pane-value-behind-no-notes", 5, glass(), job(glass(), pane(0), b""))


# From here on, several requests of document 02 meet: ribbons of a wind class.


def house_ribbon(id=600, edges=4, angle=30, awning=0, top=3000, w=5000, h=1, wind=10, zone=2):
    """A ribbon by its class, the longest and narrowest unless other sides are given."""
    return house(id, edges, angle, awning, top, w, h, wind, zone)


def house_ribbons():
    """Ribbons with the largest and the smallest numbers that a line may have, of each class and zone, and beside others."""
    good("house", "house-ribbon-w-longest", house_ribbon(9999, 4, 74, 1, 99999, 5000, 1, 10, 2))
    good("house", "house-ribbon-h-longest", house_ribbon(9999, 4, 74, 1, 99999, 1, 5000, 10, 2))
    good("house", "house-ribbon-w-shortest", house_ribbon(1, 4, 0, 0, 0, 4, 1, 1, 1))
    good("house", "house-ribbon-h-shortest", house_ribbon(1, 4, 0, 0, 0, 1, 4, 1, 1))
    extremes = itertools.product((0, 74), (0, 1), (0, 99999), ((5000, 1), (1, 5000), (4, 1), (1, 4)), (1, 10), (1, 2))
    lines = b"".join(
        house(id, 4, angle, awning, top, w, h, wind, zone)
        for id, (angle, awning, top, (w, h), wind, zone) in enumerate(extremes, 1))
    accepted("house-ribbons-of-every-extreme", 1, 128, job(glass(), lines))
    classes = enumerate(itertools.product(range(1, 11), (1, 2)), 1)
    lines = b"".join(house_ribbon(id, wind=wind, zone=zone) + ribbon(100 + id) for id, (wind, zone) in classes)
    accepted("house-ribbons-beside-ribbons", 1, 40, job(glass(), lines))


def house_ribbon_counts():
    """As many of them as there may be, and one more."""
    lines = many(house_ribbon, 256)
    accepted("most-panes-all-house-ribbons", 1, 256, job(glass(), lines))
    for name, line in (
        ("", house_ribbon(257)), ("-faulty", house_ribbon(257, zone=3)), ("-lower-case", house_ribbon(257).lower()),
        ("-of-a-known-id", house_ribbon(2)),
    ):
        refused(f"pane-line-257-a-house-ribbon{name}", 8, NOTES + lines, job(b"", lines + line))
    bad("house", "pane-line-256-a-house-ribbon-faulty", 5, house_ribbon(9998, wind=11), many(house_ribbon, 255))
    bad("house", "pane-line-256-a-house-ribbon-of-a-known-id", 6, house_ribbon(2), many(house_ribbon, 255))


# values that a line may not have, and sides of the ribbon that has them
RIBBON_FAULTS = [
    ("id", 0, (5000, 1)), ("id", 10000, (1, 5000)), ("edges", 3, (5000, 1)), ("angle", 75, (1, 5000)), ("awning", 2, (5000, 1)),
    ("w", 0, (1, 5000)), ("w", 5001, (5000, 1)), ("h", 0, (5000, 1)), ("h", 5001, (1, 5000)), ("wind", 0, (5000, 1)),
    ("wind", 11, (1, 5000)), ("zone", 0, (1, 5000)), ("zone", 3, (5000, 1)),
]


def house_ribbon_faults():
    """A value that is not allowed, on the line of a ribbon."""
    for number, value, (w, h) in RIBBON_FAULTS:
        numbers = {"w": w, "h": h, number: value}
        bad("house", f"house-ribbon-{number}-{spelled(value)}", 5, house_ribbon(**numbers))


def house_ribbon_orders():
    """The first cause of such a line, and the first line with one."""
    bad("house", "house-ribbon-form-and-value", 4, house_ribbon(wind=11, zone="01"))
    bad("house", "house-ribbon-form-and-id-repeated", 4, house_ribbon(701)[:-1] + b" \n")
    bad("house", "house-ribbon-value-and-newline-missing", 4, house_ribbon(zone=3)[:-1])
    bad("house", "house-ribbon-lower-case-and-value", 4, house_ribbon(angle=75).lower())
    bad("house", "house-ribbon-wind-and-id-repeated", 5, house_ribbon(701, w=1, h=5000, wind=0))
    bad("house", "house-ribbon-h-and-id-repeated", 5, house_ribbon(702, h=0))
    bad("house", "house-ribbon-pressures-and-id-of-a-ribbon", 5, house_ribbon(9, wind=60, zone=95), ribbon(8) + ribbon(9))
    bad("house", "house-ribbon-id-of-a-ribbon", 6, house_ribbon(9, w=9, h=36), ribbon(8) + ribbon(9))
    bad("pane", "ribbon-id-of-a-house-ribbon", 6, ribbon(9), house_ribbon(8) + house_ribbon(9))
    bad("house", "house-ribbon-but-for-the-letter-a-ribbon", 6, house_ribbon(), pane(w=5000, h=1, down=10, up=2) + pane(701))
    behind_ribbons = pane(701, w=1, h=5000) + house_ribbon(702) + house_ribbon()
    bad("house", "house-ribbon-on-one-line-form-on-next", 4, b"Q\n", behind_ribbons)
    bad("house", "house-ribbon-on-one-line-zone-on-next", 5, house_ribbon(601, zone=3), behind_ribbons)
    bad("pane", "house-ribbon-on-one-line-value-on-next", 5, pane(601, angle=80), behind_ribbons)
    bad("house", "house-ribbon-twice", 6, house_ribbon(), behind_ribbons)
    bad("house", "house-ribbon-zone-on-one-line-form-on-next", 5, house_ribbon(zone=3) + b"Q\n")
    bad("house", "house-ribbon-form-on-one-line-zone-on-next", 4, house_ribbon(zone="3 ") + house_ribbon(zone=3))
    bad("house", "house-ribbon-id-repeated-on-one-line-wind-on-next", 6, house_ribbon(702) + house_ribbon(wind=11))


# what is not a file, and its answer
NO_FILES = [("no-such-file.job", "not opened"), ("", "not opened"), (".", "not read")]


def write():
    shutil.rmtree(CRATE / "data", ignore_errors=True)
    (CRATE / "data").mkdir()
    for name, (_, file) in VECTORS.items():
        (CRATE / "data" / name).write_bytes(file)
    answers = [(name, answer) for name, (answer, _) in VECTORS.items()] + NO_FILES
    (CRATE / "args").write_text("".join(f"{name}\n" for name, _ in answers))
    (CRATE / "stdout").write_text("".join(f"{name}: {answer}\n" for name, answer in answers))
    kinds = collections.Counter(" ".join(answer.split()[:1 + answer.startswith("r")]) for answer, _ in VECTORS.values())
    print(f"{len(VECTORS)} vectors:", ", ".join(f"{kinds[kind]} {kind}" for kind in sorted(kinds)))


for group in (
    paper_jobs, sizes, limits, forms, letters, winds, mixes, house_faults, missing_newlines, offsets, trailers, sides, ids,
    counts, house_counts, order, notes, house_ribbons, house_ribbon_counts, house_ribbon_faults, house_ribbon_orders,
):
    group()
write()
