"""A second reader of the job file, written from document 01 and document 02, 2026-01 to 2026-03, alone: the answers of
check_job are compared with its own."""
import re

TRAILER = re.compile(rb"T ([0-9]{5}) ([0-9]{5})\n")
NUMBER = rb" (0|[1-9][0-9]{0,4})"
GLASS_LINE = re.compile(rb"(G)" + 8 * NUMBER + rb"\n")
PANE_LINE = re.compile(rb"([PQ])" + 9 * NUMBER + rb"\n")


def to(lowest, highest):
    return range(lowest, highest + 1)


#               id           kind      thick          w            h            two           four          stock
GLASS_VALUES = (to(1, 9999), to(1, 4), (6, 8, 10, 12), to(1, 9999), to(1, 9999), to(1, 99999), to(1, 99999), to(0, 999))
#              id           edges   angle      awning    top           w            h
PANE_VALUES = (to(1, 9999), (2, 4), to(0, 74), to(0, 1), to(0, 99999), to(1, 5000), to(1, 5000))
VALUES = {
    b"G": GLASS_VALUES,
    # down and up
    b"P": PANE_VALUES + (to(0, 1000), to(0, 1000)),
    # class and zone
    b"Q": PANE_VALUES + (to(1, 10), to(1, 2)),
}


def line_cause(line, form, ids):
    """The cause against a line behind lines with these ids, or 0; adds its id."""
    found = form.fullmatch(line)
    if not found:
        return 4
    letter, *texts = found.groups()
    numbers = [int(text) for text in texts]
    if not all(number in allowed for number, allowed in zip(numbers, VALUES[letter], strict=True)):
        return 5
    if numbers[0] in ids:
        return 6
    ids.add(numbers[0])
    return 0


def part_answer(file, start, end, form, most):
    """(0, how many lines) of a good part, or (cause, offset)."""
    ids = set()
    while start < end:
        newline = file.find(b"\n", start, end)
        behind = end if newline < 0 else newline + 1
        cause = 8 if len(ids) == most else line_cause(file[start:behind], form, ids)
        if cause:
            return cause, start
        start = behind
    return 0, len(ids)


def check(file):
    """The answer to a file of these bytes, as check_job writes it."""
    if not 14 <= len(file) <= 65535:
        return "refused 1 0"
    end = len(file) - 14
    found = TRAILER.fullmatch(file[end:])
    if not found:
        return f"refused 2 {end}"
    glass, pane = int(found[1]), int(found[2])
    if not glass <= pane <= end:
        return f"refused 3 {end}"
    cause, glasses = part_answer(file, glass, pane, GLASS_LINE, 64)
    if cause:
        return f"refused {cause} {glasses}"
    cause, panes = part_answer(file, pane, end, PANE_LINE, 256)
    if cause:
        return f"refused {cause} {panes}"
    return f"accepted {glasses} {panes}"
