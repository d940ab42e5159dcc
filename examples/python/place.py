"""Places the job of document 01's example by the library, as a program would that holds its own panes and glasses: it writes the
job file, checks it, asks for each pane and glass whether the glass passes, and places. Standard output has the lines of canopy;
standard error has which clause stands against which glass. The argument is the path of libbordavina.so."""

import ctypes
import sys
from ctypes import POINTER, Structure, c_char_p, c_size_t, c_uint32


class CheckResult(Structure):
    _fields_ = [(name, c_size_t) for name in ("number", "offset", "glasses", "panes")]


class VerdictResult(Structure):
    _fields_ = [(name, c_size_t) for name in ("number", "offset", "clause")]


class PlaceResult(Structure):
    _fields_ = [(name, c_size_t) for name in ("number", "offset", "wanted", "placed", "group")]


def load(path):
    """The library, with the types of include/bordavina.h."""
    library = ctypes.CDLL(path)
    library.bordavina_check.argtypes = [c_char_p, c_size_t]
    library.bordavina_check.restype = CheckResult
    library.bordavina_verdict.argtypes = [c_char_p, c_size_t, c_uint32, c_uint32]
    library.bordavina_verdict.restype = VerdictResult
    numbers = POINTER(c_uint32)
    library.bordavina_place.argtypes = [c_char_p, c_size_t, numbers, c_size_t, numbers, c_size_t]
    library.bordavina_place.restype = PlaceResult
    return library


# id, kind, thickness, sheet w and h, span constants for two edges and for four, stock
GLASSES = [
    (9, 1, 12, 2400, 3600, 21304, 23857, 1),
    (7, 1, 10, 2400, 3600, 17976, 20130, 1),
]

# id, edges, angle, awning, top, w and h, wind down and up
PANES = [
    (1, 4, 30, 0, 3000, 900, 1500, 60, 95),
    (2, 4, 10, 0, 3000, 500, 1000, 60, 95),
]


def line(word, numbers):
    return " ".join([word, *map(str, numbers)]) + "\n"


def job():
    """The job file: the glasses, the panes, and where each part begins."""
    glass_part = "".join(line("G", g) for g in GLASSES)
    pane_part = "".join(line("P", p) for p in PANES)
    return f"{glass_part}{pane_part}T {0:05} {len(glass_part):05}\n".encode("ascii")


def main():
    library = load(sys.argv[1])
    file = job()

    checked = library.bordavina_check(file, len(file))
    if checked.number:
        sys.exit(f"refused {checked.number} {checked.offset}")

    for pane in PANES:
        for glass in GLASSES:
            verdict = library.bordavina_verdict(file, len(file), pane[0], glass[0])
            if verdict.clause:
                print(f"pane {pane[0]}, glass {glass[0]}: clause {verdict.clause} fails", file=sys.stderr)

    answers = (c_uint32 * len(PANES))()
    short_group = (c_uint32 * len(PANES))()
    placed = library.bordavina_place(file, len(file), answers, len(answers), short_group, len(short_group))
    if placed.number:
        sys.exit(f"refused {placed.number} {placed.offset}")
    for pane, glass in zip(PANES, answers):
        print(pane[0], glass)
    print(placed.placed, placed.wanted)
    if placed.placed != placed.wanted:
        print("short", *short_group[: placed.group])


if __name__ == "__main__":
    main()
