"""Writes the vectors of judge_job: the job files in data/, the questions in args and their answers in stdout.

Run `python3 generate.py`. Each answer is stated here from document 01, "The four clauses", and document 02, 2026-01 to
2026-03 and 2026-06: a pane and a glass are made so that the clause named is the first against them, or none is. Nothing is
written where clauses.py, a second reading of the papers, says otherwise, or where reader.py, the second reader of check_job's
vectors, reads a file otherwise. Ribbons are panes with four edges that are more than three times as long as wide, along w or
along h. House panes have a wind class and a zone; each is judged beside the pane with their pressures. Tempered glass is that
of kinds 2, 3 and 4, for which the maximum dead load is less than for kind 1; the glass of a question is of kind 3 unless
another is named.
"""
import itertools
import math
import pathlib
import shutil
import sys

sys.dont_write_bytecode = True
CRATE = pathlib.Path(__file__).resolve().parent.parent
sys.path.append(str(CRATE.parent / "check_job" / "vectors"))
import clauses
import reader

KINDS = (1, 2, 3, 4)
THICK = (6, 8, 10, 12)
LIVE_LOADS = ("0.5", "1.1", "1.8")
COLUMNS = ("AR=1", "AR=2", "AR=3", "two")
MOST = 99999
# the widest ribbon: 3 times 1667 is over 5000, the longest side of a pane
WIDEST = 1666

# How much longer each side of the cut size is than that of the sight size, by thickness: two edge covers.
TWO_COVERS = {6: 12, 8: 16, 10: 16, 12: 18}

# Tables 6.2 to 6.5 by column. The twelve spans are those of 0.5, 1.1 and 1.8 kN, each for 6, 8, 10 and 12 mm.
SPANS = {
    (1, "AR=1"): (400, 1400, 2000, 2000, 0, 250, 550, 1200, 0, 0, 0, 400),
    (1, "AR=2"): (250, 850, 1900, 2000, 0, 0, 350, 825, 0, 0, 0, 275),
    (1, "AR=3"): (250, 800, 1700, 1900, 0, 0, 330, 750, 0, 0, 0, 0),
    (1, "two"): (0, 0, 250, 700, 0, 0, 0, 0, 0, 0, 0, 0),
    (2, "AR=1"): (2000, 2000, 2000, 2000, 400, 1450, 2000, 2000, 0, 450, 1200, 2000),
    (2, "AR=2"): (1500, 1800, 2000, 2000, 250, 950, 2000, 2000, 0, 300, 800, 1950),
    (2, "AR=3"): (1200, 1600, 1800, 1950, 250, 900, 2000, 2000, 0, 300, 750, 1850),
    (2, "two"): (0, 800, 1600, 1950, 0, 0, 250, 800, 0, 0, 0, 0),
    (3, "AR=1"): (2000, 2000, 2000, 2000, 1100, 2000, 2000, 2000, 350, 1400, 2000, 2000),
    (3, "AR=2"): (2000, 2000, 2000, 2000, 725, 2000, 2000, 2000, 0, 925, 2000, 2000),
    (3, "AR=3"): (2000, 2000, 2000, 2000, 700, 2000, 2000, 2000, 0, 900, 2000, 2000),
    (3, "two"): (650, 1800, 2000, 2000, 0, 250, 850, 1900, 0, 0, 0, 700),
    (4, "AR=1"): (2000, 2000, 2000, 2000, 1300, 2000, 2000, 2000, 400, 1400, 2000, 2000),
    (4, "AR=2"): (2000, 2000, 2000, 2000, 850, 2000, 2000, 2000, 0, 925, 2000, 2000),
    (4, "AR=3"): (2000, 2000, 2000, 2000, 800, 2000, 2000, 2000, 0, 900, 2000, 2000),
    (4, "two"): (700, 1800, 2000, 2000, 0, 400, 1000, 1950, 0, 0, 300, 700),
}

# The maximum dead load of 6, 8, 10 and 12 mm of kind 1, rounded up, from a row's angle to the one before the next row.
ANNEALED = {
    (0, 4): (57, 76, 95, 114), (5, 9): (57, 76, 95, 114), (10, 14): (56, 75, 94, 112), (15, 19): (55, 74, 92, 110),
    (20, 24): (54, 72, 90, 108), (25, 29): (52, 70, 87, 104), (30, 34): (49, 66, 82, 98), (35, 39): (47, 63, 79, 94),
    (40, 44): (44, 59, 74, 88), (45, 49): (40, 54, 67, 80), (50, 54): (37, 50, 62, 74), (55, 59): (33, 44, 55, 66),
    (60, 64): (28, 38, 47, 56), (65, 69): (24, 32, 40, 48), (70, 74): (19, 26, 32, 38),
}
# That of kinds 2, 3 and 4 (document 02, 2026-06): the row times 31 times the thickness, a 300th of it, rounded up.
TEMPERED = {
    (0, 4): (36, 48, 59, 71), (5, 9): (36, 48, 59, 71), (10, 14): (35, 47, 58, 70), (15, 19): (35, 46, 57, 69),
    (20, 24): (34, 45, 56, 67), (25, 29): (33, 43, 54, 65), (30, 34): (31, 41, 51, 61), (35, 39): (30, 39, 49, 59),
    (40, 44): (28, 37, 46, 55), (45, 49): (25, 34, 42, 50), (50, 54): (23, 31, 39, 46), (55, 59): (21, 28, 35, 41),
    (60, 64): (18, 24, 29, 35), (65, 69): (15, 20, 25, 30), (70, 74): (12, 16, 20, 24),
}
MAXIMUM = {1: ANNEALED, 2: TEMPERED, 3: TEMPERED, 4: TEMPERED}
# The minimum of every kind, rounded down, from the angle behind a row's to the next row's.
MINIMUM = {
    (0, 0): (13, 17, 21, 26), (1, 5): (13, 17, 21, 26), (6, 10): (13, 17, 21, 26), (11, 15): (13, 17, 21, 26),
    (16, 20): (12, 16, 20, 24), (21, 25): (12, 16, 20, 24), (26, 30): (11, 14, 18, 22), (31, 35): (11, 14, 18, 22),
    (36, 40): (10, 13, 16, 20), (41, 45): (9, 12, 15, 18), (46, 50): (9, 12, 15, 18), (51, 55): (8, 10, 13, 16),
    (56, 60): (7, 9, 11, 14), (61, 65): (6, 8, 10, 12), (66, 70): (5, 6, 8, 10), (71, 74): (3, 4, 5, 6),
}

# Table A2, roofs, ultimate, by column: N1 to N6 and C1 to C4, in units of 0.01 kPa. Down at any position; up by zone.
DOWN = (44, 60, 95, 141, 207, 280, 143, 212, 312, 422)
UP = {
    1: (69, 95, 149, 221, 325, 439, 216, 321, 473, 639),
    2: (125, 173, 270, 402, 591, 799, 338, 502, 739, 998),
}
# every class with every zone
CLASSES = list(itertools.product(range(1, 11), (1, 2)))

# what each letter's line holds
MAKE = {letter: make for make, letter in clauses.LETTERS.items()}
FILES = {}
RUN = []
JOBS = {}


def pane(edges=4, angle=45, awning=0, top=2500, w=200, h=200, down=0, up=0):
    """A pane that every kind and thickness serves, unless the numbers given stand against it."""
    return clauses.Pane(edges, angle, awning, top, w, h, down, up)


def house(edges=4, angle=45, awning=0, top=2500, w=200, h=200, wind=1, zone=1):
    """The same by a wind class and a zone."""
    return clauses.House(edges, angle, awning, top, w, h, wind, zone)


def pressures(wind, zone):
    return DOWN[wind - 1], UP[zone][wind - 1]


def by_pressures(it):
    """The pane with the pressures of a house pane."""
    return clauses.Pane(*it[:6], *pressures(it.wind, it.zone))


def glass(kind=3, thick=10, w=9999, h=9999, two=MOST, four=MOST, stock=1):
    return clauses.Glass(kind, thick, w, h, two, four, stock)


def covering(it, kind=3, thick=10, **numbers):
    """A glass whose sheet is the cut size of this pane."""
    return glass(kind, thick, it.w + TWO_COVERS[thick], it.h + TWO_COVERS[thick], **numbers)


def letter(it):
    return clauses.LETTERS[type(it)]


def lines(entries):
    return "".join(" ".join(map(str, (letter(it), id, *it))) + "\n" for id, it in entries).encode()


def file_of(notes, glasses, panes):
    """The bytes of a job with these notes, glasses and panes, each of which comes with its id."""
    notes, glasses, panes = notes.encode(), lines(glasses), lines(panes)
    return notes + glasses + panes + b"T %05d %05d\n" % (len(notes), len(notes + glasses))


def put(name, answer, file):
    if name in FILES:
        raise SystemExit(f"{name}: twice")
    if reader.check(file) != answer:
        raise SystemExit(f"{name}: stated {answer}, but reader.py answers {reader.check(file)}")
    FILES[name] = file


def spelled(verdict):
    return f"fails {verdict}" if verdict else "passes"


def entries(part):
    """What each line holds, by its id."""
    words = [line.split() for line in part.decode().splitlines()]
    return {int(id): MAKE[first](*map(int, numbers)) for first, id, *numbers in words}


def second_answers(file, ids):
    """The answers of the second readings to these ids, two by two, or to every pair."""
    answer = reader.check(file)
    if answer.startswith("refused"):
        return [f"{p} {g} {answer}" for p, g in zip(ids[::2], ids[1::2])] if ids else [answer]
    glass_at, pane_at = int(file[-12:-7]), int(file[-6:-1])
    glasses, panes = entries(file[glass_at:pane_at]), entries(file[pane_at:-14])
    questions = zip(ids[::2], ids[1::2]) if ids else [(p, g) for p in panes for g in glasses]
    return [
        f"{p} {g} " + ("refused 10 0" if p not in panes else "refused 11 0" if g not in glasses
                       else spelled(clauses.verdict(panes[p], glasses[g])))
        for p, g in questions
    ]


def run(name, ids, answers):
    """A name with ids behind it, and the lines that answer them."""
    seconds = second_answers(FILES[name], ids)
    for stated, second in zip(answers, seconds, strict=True):
        if stated != second:
            raise SystemExit(f"{name}: stated {stated}, but the second readings {second}")
    run_words(name, ids, answers)


def run_words(name, words, answers):
    """The same where the words are not all ids, or the name is not a file's."""
    RUN.append(([name, *map(str, words)], [f"{name}: {answer}" for answer in answers]))


class Job:
    """A job that grows by questions. Its panes have the ids from 1 on, its glasses those from 501 on. It holds a pane with its
    letter: panes of both letters may have the same numbers."""

    def __init__(self, name):
        self.name, self.panes, self.glasses, self.verdicts = name, {}, {}, {}

    def has_room(self, pane, glass):
        has_pane, has_glass = (letter(pane), pane) in self.panes, glass in self.glasses
        return (has_pane or len(self.panes) < 256) and (has_glass or len(self.glasses) < 64)

    def ask(self, verdict, pane, glass):
        found = clauses.verdict(pane, glass)
        if found != verdict:
            raise SystemExit(f"{self.name}: stated {spelled(verdict)}, but clauses.py {spelled(found)}: {pane}, {glass}")
        pane_id = self.panes.setdefault((letter(pane), pane), 1 + len(self.panes))
        glass_id = self.glasses.setdefault(glass, 501 + len(self.glasses))
        self.verdicts[pane_id, glass_id] = verdict

    def put(self):
        """Runs the file with the ids of its questions, or with none where every pair is one."""
        glasses, panes = [(id, it) for it, id in self.glasses.items()], [(id, it) for (_, it), id in self.panes.items()]
        put(self.name, f"accepted {len(glasses)} {len(panes)}", file_of(self.name + "\n", glasses, panes))
        asked = sorted(self.verdicts)
        ids = [] if len(asked) == len(glasses) * len(panes) else [id for question in asked for id in question]
        run(self.name, ids, [f"{p} {g} {spelled(self.verdicts[p, g])}" for p, g in asked])


def ask(group, verdict, pane, glass):
    """Puts a question in the last job of the group, or in a new one where that is full. One on a house pane is also put on the
    pane with its pressures."""
    for it in [pane, by_pressures(pane)] if isinstance(pane, clauses.House) else [pane]:
        jobs = JOBS.setdefault(group, [])
        if not jobs or not jobs[-1].has_room(it, glass):
            jobs.append(Job(f"{group}-{len(jobs) + 1}.job" if jobs else f"{group}.job"))
        jobs[-1].ask(verdict, it, glass)


def by_edges(edges, constant, other, **numbers):
    """A glass with this constant for so many edges, and the other one for a pane of the other edges."""
    two, four = (constant, other) if edges == 2 else (other, constant)
    return glass(two=two, four=four, **numbers)


def least_constant(span, pressure):
    """The least constant that bears P over a span."""
    return math.isqrt(span * span * pressure - 1) + 1


def span_of(pane):
    return pane.w if pane.edges == 2 else min(pane.w, pane.h)


def pin(group, pressure, pane, **numbers):
    """P of this pane and a glass with these numbers is this and nothing else: the least constant that bears it does not bear
    one more, and one below it bears one less. The constant for other edges would turn each answer."""
    span = span_of(pane)
    least = least_constant(span, pressure)
    if not (least ** 2 < span ** 2 * (pressure + 1) and (least - 1) ** 2 >= span ** 2 * (pressure - 1)):
        raise SystemExit(f"{group}: a span of {span} does not tell P {pressure} from its neighbours")
    ask(group, 0, pane, by_edges(pane.edges, least, 1, **numbers))
    ask(group, 4, pane, by_edges(pane.edges, least - 1, MOST, **numbers))


def dead_load(table, angle, thick):
    return next(loads[THICK.index(thick)] for (first, last), loads in table.items() if first <= angle <= last)


# the slope and the place that give each live load
LOADED = {"0.5": dict(angle=45), "1.1": dict(angle=10), "1.8": dict(angle=45, awning=1)}


def rows():
    """Each kind, live load and thickness with its spans by column."""
    for kind in KINDS:
        for row, (load, thick) in enumerate((load, thick) for load in LIVE_LOADS for thick in THICK):
            yield kind, load, thick, [SPANS[kind, column][row] for column in COLUMNS]


def shapes(column, span):
    """Panes of this span that read this column and are no ribbons: two at its ends, one with w shorter and one with h
    shorter."""
    if column == "AR=1":
        return [dict(w=span, h=span)]
    if column == "AR=2":
        return [dict(w=span, h=2 * span), dict(w=span + 1, h=span)]
    if column == "AR=3":
        return [dict(w=span, h=min(3 * span, 5000)), dict(w=2 * span + 1, h=span)]
    return [dict(edges=2, w=span, h=5000), dict(edges=2, w=span, h=1)]


def spans():
    """Each of the 192 spans: at the entry, and a millimetre above. A dash lets no span pass."""
    for kind, load, thick, entries in rows():
        group, sheet, loaded = f"spans-{kind}-{thick}", glass(kind, thick), LOADED[load]
        for column, entry in zip(COLUMNS, entries):
            for shape in shapes(column, entry) if entry else []:
                ask(group, 0, pane(**loaded, **shape), sheet)
            for shape in shapes(column, entry + 1):
                ask(group, 3, pane(**loaded, **shape), sheet)


def columns():
    """Of each row, the sides at which one column ends and the next begins, where their spans differ. The sides at which ribbons
    begin are those of ribbon_columns."""
    for kind, load, thick, (first, second, third, two) in rows():
        group, sheet, loaded = f"spans-{kind}-{thick}", glass(kind, thick), LOADED[load]
        if first > second:
            ask(group, 0, pane(w=first, h=first, **loaded), sheet)
            ask(group, 3, pane(w=first, h=first + 1, **loaded), sheet)
            ask(group, 3, pane(w=first + 1, h=first, **loaded), sheet)
        if second > third:
            ask(group, 0, pane(w=second, h=2 * second, **loaded), sheet)
            ask(group, 0, pane(w=2 * second, h=second, **loaded), sheet)
            ask(group, 3, pane(w=second, h=2 * second + 1, **loaded), sheet)
            ask(group, 3, pane(w=2 * second + 1, h=second, **loaded), sheet)
        if third > two:
            longest = min(3 * third, 5000)
            ask(group, 0, pane(w=third, h=longest, **loaded), sheet)
            ask(group, 0, pane(w=longest, h=third, **loaded), sheet)
            ask(group, 3, pane(2, w=third, h=longest, **loaded), sheet)
        if two:
            # the span is w, and not the shorter side
            ask(group, 0, pane(2, w=two, h=two, **loaded), sheet)
            ask(group, 0, pane(2, w=two, h=two + 1, **loaded), sheet)
            ask(group, 3, pane(2, w=two + 1, h=two, **loaded), sheet)


# sides of a four-edge pane of the span 200, and of a two-edge pane of the span 240
FOUR_EDGES = [(200, 200), (200, 390), (390, 200), (200, 600), (600, 200)]
TWO_EDGES = [(240, 700), (240, 70), (240, 240)]
# for each table of dead loads the kinds of 6, 8, 10 and 12 mm, with four edges and with two
KINDS_USED = {"maximum": {4: (2, 1, 3, 4), 2: (3, 4, 3, 4)}, "minimum": {4: (4, 3, 1, 2), 2: (4, 3, 4, 3)}}
# the P of 6, 8, 10 and 12 mm, which the wind makes the same at all angles
PRESSURES = dict(zip(THICK, (150, 173, 211, 250)))


def given_by(table, kind, angle, thick):
    """The wind with which this dead load gives that P: with the maximum by the wind down, with the minimum by the wind up."""
    if table == "maximum":
        return dict(down=PRESSURES[thick] - dead_load(MAXIMUM[kind], angle, thick), up=angle)
    return dict(down=angle % 30, up=PRESSURES[thick] + dead_load(MINIMUM, angle, thick))


def dead_loads():
    """The two dead loads of every angle and thickness. The wind makes P the same for all of a thickness."""
    for table, angle, (row, thick) in itertools.product(("maximum", "minimum"), range(75), enumerate(THICK)):
        # under 1.1 kN, 6 mm spans nothing with two edges, and 8 mm of kind 1 nothing but with equal sides
        edges = 2 if angle % 2 and not (angle < 30 and thick == 6) else 4
        kind = KINDS_USED[table][edges][row]
        w, h = TWO_EDGES[angle % 3] if edges == 2 else FOUR_EDGES[angle % 5]
        if kind == 1 and angle < 30 and thick == 8:
            w, h = 200, 200
        it = pane(edges, angle, w=w, h=h, **given_by(table, kind, angle, thick))
        pin(f"{table}-{thick}-edges-{edges}", PRESSURES[thick], it, kind=kind, thick=thick)


# by live load and edges, the kinds and thicknesses that clause 3 lets span nothing
NO_SPAN = {
    ("1.1", 4): {(1, 6)}, ("1.1", 2): {(1, 6), (1, 8), (1, 10), (1, 12), (2, 6), (2, 8), (3, 6), (4, 6)},
    ("0.5", 4): set(), ("0.5", 2): {(1, 6), (1, 8), (2, 6)},
}
# the columns that FOUR_EDGES and TWO_EDGES read; no span of theirs that is not a dash is under 250
READ = {4: ("AR=1", "AR=2", "AR=2", "AR=3", "AR=3"), 2: ("two", "two", "two")}


def sides(kind, thick, angle, edges, turn=0):
    """Sides of FOUR_EDGES or TWO_EDGES that this glass spans at this angle, others at other turns; None if there are none."""
    load = "1.1" if angle < 30 else "0.5"
    row = 4 * LIVE_LOADS.index(load) + THICK.index(thick)
    spanned = [it for it, column in zip(TWO_EDGES if edges == 2 else FOUR_EDGES, READ[edges]) if SPANS[kind, column][row]]
    if (not spanned) != ((kind, thick) in NO_SPAN[load, edges]):
        raise SystemExit(f"kind {kind}, {thick} mm, {load} kN, {edges} edges: spans {spanned}")
    return spanned[turn % len(spanned)] if spanned else None


def panes_for(kind, thick, angle, edges, turn=0, **wind):
    """A pane of these edges that this glass spans, or one of four edges if there is none; nothing if there is none either."""
    for count in edges, 4:
        if found := sides(kind, thick, angle, count, turn):
            w, h = found
            return [pane(count, angle, w=w, h=h, **wind)]
    return []


def dead_loads_by_kind():
    """The two dead loads of every kind: at the first angle of each row with four edges, and at the last with two, or with four
    where two span nothing."""
    for table, rows in ("maximum", TEMPERED), ("minimum", MINIMUM):
        for (first, last), kind, thick in itertools.product(rows, KINDS, THICK):
            for angle, edges in (first, 4), (last, 2):
                for it in panes_for(kind, thick, angle, edges, angle + thick // 2, **given_by(table, kind, angle, thick)):
                    pin(f"{table}-kind-{kind}", PRESSURES[thick], it, kind=kind, thick=thick)


def eased():
    """Panes that tempered glass serves, and would not by the maximum of kind 1: one below the least constant for that P fails
    with kind 1, and passes with the others. In each row at an angle between, with two edges every other time."""
    for place, (first, _) in enumerate(ANNEALED):
        for turn, thick in enumerate(THICK, place):
            wanted, pressure = (thick, first + 2, 2 + turn % 2 * 2, turn), PRESSURES[thick]
            wind = given_by("maximum", 1, first + 2, thick)
            annealed = panes_for(1, *wanted, **wind)
            for it in annealed:
                pin(f"eased-{thick}", pressure, it, kind=1, thick=thick)
            # where kind 1 spans nothing, with a pane that kind 2 spans
            for it in annealed or panes_for(2, *wanted, **wind):
                below = least_constant(span_of(it), pressure) - 1
                for kind in 2, 3, 4:
                    ask(f"eased-{thick}", 0, it, by_edges(it.edges, below, 1, kind=kind, thick=thick))


# angle, thickness, the maximum of kind 1 and of tempered glass, and the minimum
PAPER_LOADS = [
    # document 02: 71 and not 114
    (0, 12, 114, 71, 26),
    # examples (f) and (e), of kind 1
    (10, 8, 75, 47, 17), (32, 6, 49, 31, 11),
]


def paper_loads():
    """The dead loads that the papers name, of every kind: the maximum with no wind at all, the minimum with a wind up."""
    for (angle, thick, annealed, tempered, minimum), kind, edges in itertools.product(PAPER_LOADS, KINDS, (2, 4)):
        for it in panes_for(kind, thick, angle, edges):
            pin("paper-loads", annealed if kind == 1 else tempered, it, kind=kind, thick=thick)
            pin("paper-loads", 200, it._replace(up=200 + minimum), kind=kind, thick=thick)


# Angle, thickness and the maximum of tempered glass, which is rounded up once. It is one more if the load of kind 1 is rounded
# up and then 31/50 of that,
FROM_KIND_1 = [(10, 10, 58), (15, 10, 57), (25, 8, 43), (35, 8, 39), (60, 10, 29), (70, 8, 16)]
# or if 31/50 of the row is rounded up and then a sixth of that times the thickness.
FROM_THE_ROW = [(0, 10, 59), (5, 12, 71), (15, 8, 46), (20, 12, 67), (30, 8, 41), (40, 10, 46), (55, 12, 41)]
# The unrounded loads next above a whole number, by a 15th and twice by a 10th, and next below, by a 75th and by a 25th
NEXT_TO_WHOLE = [(45, 8, 34), (15, 6, 35), (55, 10, 35), (25, 8, 43), (20, 12, 67)]


def rounded():
    """The loads that another way to round would change, with no wind: P is the maximum. No row that is read gives a whole
    number before it is rounded, so rounding down would change every load."""
    for (row, *_), thick in itertools.product(ANNEALED.values(), THICK):
        if row * 31 * thick % 300 == 0:
            raise SystemExit(f"rounded: the row {row} gives a whole number in {thick} mm")
    for angle, thick, load in FROM_KIND_1:
        if math.ceil(dead_load(ANNEALED, angle, thick) * 31 / 50) != load + 1:
            raise SystemExit(f"rounded: at {angle} degrees, {thick} mm has {load} by the rounded load of kind 1 too")
    for angle, thick, load in FROM_THE_ROW:
        if math.ceil(math.ceil(dead_load(ANNEALED, angle, 6) * 31 / 50) * thick / 6) != load + 1:
            raise SystemExit(f"rounded: at {angle} degrees, {thick} mm has {load} by the rounded row too")
    for table in FROM_KIND_1, FROM_THE_ROW, NEXT_TO_WHOLE:
        for (angle, thick, load), kind in itertools.product(table, (2, 3, 4)):
            for it in panes_for(kind, thick, angle, 4 if kind == 3 else 2, kind):
                pin("rounded", load, it, kind=kind, thick=thick)


# angle, thickness, the maximum of kind 1 and of tempered glass, and the minimum
GOVERNED = [
    (0, 12, 114, 71, 26), (10, 8, 75, 47, 17), (30, 12, 98, 61, 22), (45, 6, 40, 25, 9), (74, 10, 32, 20, 5),
]


def governed():
    """Which wind gives P, beside a wind down of 90. The wind up gives it the sooner the less the maximum is."""
    for place, (angle, thick, annealed, tempered, minimum) in enumerate(GOVERNED):
        for up, first, others in (
            # down in every kind; the last is where both are equal with tempered glass
            (0, 90 + annealed, 90 + tempered), (90 + tempered + minimum - 1, 90 + annealed, 90 + tempered),
            (90 + tempered + minimum, 90 + annealed, 90 + tempered),
            # down in kind 1, and up in the others, since their maximum is less; the last is where both are equal with kind 1
            (90 + tempered + minimum + 1, 90 + annealed, 90 + tempered + 1),
            (90 + annealed + minimum - 1, 90 + annealed, 90 + annealed - 1),
            (90 + annealed + minimum, 90 + annealed, 90 + annealed),
            # up in every kind, which is the same for all
            (90 + annealed + minimum + 1, 90 + annealed + 1, 90 + annealed + 1), (700, 700 - minimum, 700 - minimum),
        ):
            for kind in KINDS:
                for it in panes_for(kind, thick, angle, 2 + (place + kind) % 2 * 2, place, down=90, up=up):
                    pin("governed", first if kind == 1 else others, it, kind=kind, thick=thick)


def kinds():
    """Clause 1, which stands against monolithic glass alone."""
    for kind in KINDS:
        for top in 0, 1, 2999, 3000, 3001, 30000, MOST:
            ask("kind", 1 if kind == 4 and top >= 3000 else 0, pane(top=top), glass(kind, 12))
        for angle, awning in (0, 0), (0, 1), (74, 0), (74, 1):
            ask("kind", 0, pane(angle=angle, awning=awning, top=2999), glass(kind, 12))
            ask("kind", 1 if kind == 4 else 0, pane(angle=angle, awning=awning, top=3000), glass(kind, 12))


# sheets of 10 mm for a pane of 300 by 500, and whether its cut size of 316 by 516 lies within
SHEETS = [
    (316, 516, True), (516, 316, True), (317, 517, True), (516, 516, True), (316, 9999, True), (9999, 316, True),
    (315, 516, False), (316, 515, False), (516, 315, False), (515, 316, False), (515, 515, False), (315, 9999, False),
    (9999, 315, False), (315, 517, False), (517, 315, False), (317, 515, False), (515, 317, False), (1, 1, False),
    (316, 316, False), (515, 9999, True), (9999, 515, True), (416, 416, False),
]


def sizes():
    """Clause 2 in 10 mm, upright and turned; the sheet may be turned with two edges too."""
    for edges in 2, 4:
        for w, h, is_within in SHEETS:
            ask("size", 0 if is_within else 2, pane(edges, w=300, h=500), glass(w=w, h=h))
            ask("size", 0 if is_within else 2, pane(edges, w=500, h=300), glass(w=w, h=h))
        for w, h, verdict in (416, 416, 0), (415, 416, 2), (416, 415, 2), (415, 415, 2), (415, 9999, 2), (9999, 415, 2):
            ask("size-equal", verdict, pane(edges, w=400, h=400), glass(w=w, h=h))
        for w, h in (17, 17), (17, 9999), (9999, 17), (9999, 9999):
            ask("size-least", 0, pane(edges, w=1, h=1), glass(w=w, h=h))
    for w, h, verdict in (1683, 5016, 0), (5016, 1683, 0), (1682, 5016, 2), (1683, 5015, 2), (5015, 1683, 2), (5016, 1682, 2):
        ask("size-most", verdict, pane(w=1667, h=5000), glass(w=w, h=h))
        ask("size-most", verdict, pane(w=5000, h=1667), glass(w=w, h=h))


# B, P and K with B*B*P equal to K*K
EQUAL = [
    (100, 144, 1200), (1, 25, 5), (7, 36, 42), (250, 400, 5000), (650, 49, 4550), (2000, 100, 20000), (1999, 529, 45977),
    (2000, 961, 62000), (1, 900, 30), (333, 64, 2664),
]
# one above
ABOVE = [
    (1, 26, 5), (5, 41, 32), (13, 29, 70), (145, 37, 882), (257, 65, 2072), (401, 101, 4030), (577, 145, 6948),
    (901, 226, 13545), (1601, 401, 32060), (1937, 485, 42658), (1, 962, 31),
]
# one below
BELOW = [
    (1, 24, 5), (10, 26, 51), (14, 50, 99), (20, 101, 201), (40, 401, 801), (62, 962, 1923), (255, 63, 2024), (399, 99, 3970),
    (899, 224, 13455), (1599, 399, 31940), (1935, 483, 42526),
]


def pressed(edges, span, pressure, is_up):
    """A pane under this P, by the wind down or up, and the thickness of tempered glass for which it has it."""
    angle, thick, maximum, minimum = (60, 12, 35, 14) if pressure >= 56 else (74, 6, 12, 3)
    wind = dict(up=pressure + minimum) if is_up else dict(down=pressure - maximum)
    return pane(edges, angle, w=span, h=span, **wind), thick


def root_tables():
    """B and P, and the least constant that bears them."""
    for table, apart in (EQUAL, 0), (ABOVE, 1), (BELOW, -1):
        for span, pressure, constant in table:
            if span * span * pressure - constant * constant != apart:
                raise SystemExit(f"roots: {span} {pressure} {constant} is not {apart} apart")
            yield span, pressure, constant + 1 if apart > 0 else constant


def root(group, least, it, thick, **sheet):
    """A pane that this constant for its edges bears, and one below it does not. The other constant would turn each answer."""
    ask(group, 0, it, by_edges(it.edges, least, 1, thick=thick, **sheet))
    ask(group, 4, it, by_edges(it.edges, least - 1, MOST, thick=thick, **sheet))


def roots():
    """Clause 4 where B*B*P is K*K or next to it, by the constant for the pane's edges."""
    for span, pressure, least in root_tables():
        for edges in 2, 4:
            for is_up in False, True:
                root("roots", least, *pressed(edges, span, pressure, is_up))


def first_of(*failing):
    return next((number for number, fails in enumerate(failing, 1) if fails), 0)


def orders():
    """Every set of clauses that fail together: the first is named. Clause 1 fails by the top, 2 by a sheet that lacks a
    millimetre, 3 by the thickness and 4 by the constant."""
    for edges, awning in (4, 1), (2, 0):
        for top, lack, thick, constant in itertools.product((2999, 3000), (0, 1), (8, 6), (MOST, 1)):
            it = pane(edges, awning=awning, w=1000, h=1000, top=top)
            side = 1000 + TWO_COVERS[thick] - lack
            sheet = by_edges(edges, constant, MOST, kind=4, thick=thick, w=side, h=side)
            ask(f"order-{edges}", first_of(top == 3000, lack == 1, thick == 6, constant == 1), it, sheet)
    # laminated glass, against which clause 1 never stands
    for lack, thick, constant in itertools.product((0, 1), (12, 8), (MOST, 1)):
        it = pane(angle=20, top=9000, w=1000, h=1000)
        side = 1000 + TWO_COVERS[thick] - lack
        sheet = by_edges(4, constant, MOST, kind=1, thick=thick, w=side, h=side)
        ask("order-laminated", first_of(False, lack == 1, thick == 8, constant == 1), it, sheet)


def winds():
    """P at 45 degrees, where 6 mm has a maximum of 40 with kind 1 and of 25 with kind 3, and a minimum of 9; 12 mm has 80, 50
    and 18. With two edges, 6 mm of kind 1 spans nothing."""
    for kind, thick, maximum, minimum in (1, 6, 40, 9), (1, 12, 80, 18), (3, 6, 25, 9), (3, 12, 50, 18):
        for down, up, pressure in (
            (0, 0, maximum), (1, 0, maximum + 1), (0, 1, maximum), (0, minimum - 1, maximum), (0, minimum, maximum),
            (0, minimum + 1, maximum), (0, maximum, maximum), (0, maximum + minimum - 1, maximum),
            (0, maximum + minimum, maximum), (0, maximum + minimum + 1, maximum + 1), (10, minimum, maximum + 10),
            (10, maximum + minimum + 9, maximum + 10), (10, maximum + minimum + 10, maximum + 10),
            (10, maximum + minimum + 11, maximum + 11), (0, 200, 200 - minimum), (170, 200, maximum + 170),
            (200, 0, maximum + 200), (1000, 0, maximum + 1000), (0, 1000, 1000 - minimum), (1000, 1000, maximum + 1000),
            (999, 1000, maximum + 999), (900, 1000, 1000 - minimum), (121, 130, maximum + 121),
        ):
            for edges in (4,) if (kind, thick) == (1, 6) else (2, 4):
                awning = 1 if (kind, thick) == (3, 12) else 0
                pin("wind", pressure, pane(edges, awning=awning, down=down, up=up), kind=kind, thick=thick)


def live_loads():
    """The live load of every angle. Laminated heat-strengthened glass of 8 mm spans 2000 under 0.5 kN, 1450 under 1.1 and 450
    under 1.8, with equal sides."""
    sheet = glass(kind=2, thick=8)
    for angle in range(75):
        reach = 1450 if angle < 30 else 2000
        ask("live-load", 0, pane(angle=angle, w=reach, h=reach), sheet)
        ask("live-load", 3, pane(angle=angle, w=reach + 1, h=reach + 1), sheet)
        ask("live-load", 0, pane(angle=angle, awning=1, w=450, h=450), sheet)
        ask("live-load", 3, pane(angle=angle, awning=1, w=451, h=451), sheet)
    # the steeper pane may have the shorter span
    sheet = glass(kind=2, thick=10)
    for angle, awning, reach in (29, 0, 2000), (30, 0, 1800), (29, 1, 750), (30, 1, 750), (45, 1, 750):
        ask("steeper", 0, pane(angle=angle, awning=awning, w=reach, h=2 * reach + 1), sheet)
        ask("steeper", 3, pane(angle=angle, awning=awning, w=reach + 1, h=2 * reach + 3), sheet)


def limits():
    """The largest and the smallest values. B*B*P and K*K go beyond 32 bits."""
    for kind in KINDS:
        for thick in THICK:
            sheet = glass(kind, thick, stock=999)
            ask("limits", 1 if kind == 4 else 3, pane(4, 74, 1, MOST, 5000, 5000, 1000, 1000), sheet)
            ask("limits", 1 if kind == 4 else 3, pane(2, 74, 1, MOST, 5000, 5000, 1000, 1000), sheet)
            ask("limits", 3, pane(4, 74, 0, 0, 5000, 5000, 1000, 1000), sheet)
    # 12 mm of kind 3 has 71 at 0 degrees, where kind 1 has 114: P is 1071 under the highest wind, and K at least 65453 for a
    # span of 2000, where P 1114 would need 66754. Here B*B*P fits 32 bits
    heavy = pane(4, 0, 0, 2999, 2000, 2000, 1000, 1000)
    for constant, verdict in (
        (MOST, 0), (66754, 0), (66753, 0), (65536, 0), (65535, 0), (65453, 0), (65452, 4), (1, 4),
    ):
        ask("limits", verdict, heavy, glass(thick=12, two=MOST if verdict else 1, four=constant))
        ask("limits", verdict, heavy._replace(h=5000), glass(thick=12, two=MOST if verdict else 1, four=constant))
    # 1900 with two edges: K at least 62180, where P 1114 would need 63416
    heavy = heavy._replace(edges=2, w=1900, h=5000)
    for constant, verdict in (MOST, 0), (63416, 0), (63415, 0), (62180, 0), (62179, 4), (1, 4):
        ask("limits", verdict, heavy, glass(thick=12, two=constant, four=MOST if verdict else 1))
    # 12 mm of kind 1 spans 2000 at 30 degrees, where it has 98: P is 1098, and K at least 66273. B*B*P is 97032704 beyond 32
    # bits, for which a constant of 9851 would do
    heavy = pane(4, 30, 0, 9000, 2000, 2000, 1000, 1000)
    for constant, verdict in (MOST, 0), (66273, 0), (66272, 4), (65536, 4), (65535, 4), (9851, 4), (9850, 4), (1, 4):
        ask("limits", verdict, heavy, glass(1, 12, two=MOST if verdict else 1, four=constant))
        ask("limits", verdict, heavy._replace(h=4000), glass(1, 12, two=MOST if verdict else 1, four=constant))
    # K*K is 0 but for a multiple of 2 to the 32, or little more
    for constant in 65536, 65537, 80265, 92682, 92683, 98304, MOST:
        ask("limits", 0, pane(w=2000, h=2000, angle=60, down=44), glass(thick=12, two=1, four=constant))
    # the smallest pane on the smallest sheet for it: P is 36, where 57 would need a constant of 8
    small = pane(4, 0, 0, 0, 1, 1, 0, 0)
    for constant, verdict in (1, 4), (5, 4), (6, 0), (7, 0), (8, 0):
        ask("limits", verdict, small, glass(3, 6, 13, 13, MOST if verdict else 1, constant, 0))
    # high wind alone is no cause: assumption (f) of 6.5.4 sets no further limit
    for down, up in (120, 0), (121, 0), (1000, 0), (0, 121), (0, 1000), (1000, 1000):
        ask("limits", 0, pane(down=down, up=up), glass())


def stocks():
    """The number of sheets has no say."""
    for stock in 0, 1, 999:
        ask("stock", 0, pane(), glass(stock=stock))
        ask("stock", 1, pane(top=3000), glass(kind=4, stock=stock))
        ask("stock", 3, pane(w=2001, h=2001), glass(stock=stock))


def ribbons_of(span):
    """Sides of ribbons of this span: as short as one can be and as long, each with w shorter and with h shorter."""
    return [dict(w=w, h=h) for longer in (3 * span + 1, 5000) for w, h in ((span, longer), (longer, span))]


def ribbon_spans():
    """Each of the 48 spans of the two-edge column, as ribbons read it: at the entry, and a millimetre above. An entry above the
    widest ribbon stops none, and a dash lets none pass."""
    entries = [two for _, _, _, (*_, two) in rows()]
    dashes, wide = entries.count(0), sum(two > WIDEST for two in entries)
    if (len(entries), dashes, wide, len(entries) - dashes - wide) != (48, 24, 9, 15):
        raise SystemExit(f"ribbons: of {len(entries)} entries {dashes} are dashes and {wide} are wider than a ribbon")
    for kind, load, thick, (*_, two) in rows():
        group, sheet, loaded = f"ribbons-{kind}-{thick}", glass(kind, thick), LOADED[load]
        reach = min(two, WIDEST)
        for shape in ribbons_of(reach) if reach else []:
            ask(group, 0, pane(**loaded, **shape), sheet)
        for shape in ribbons_of(reach + 1) if reach < WIDEST else []:
            ask(group, 3, pane(**loaded, **shape), sheet)


def ribbon_columns():
    """Of each row, the sides at which AR=3 ends and ribbons begin, where their spans differ: with the narrowest and the widest
    span that AR=3 passes and the two-edge column does not. In 4 of these rows no ribbon is above the two-edge span."""
    told = 0
    for kind, load, thick, (_, _, third, two) in rows():
        group, sheet, loaded = f"ribbons-{kind}-{thick}", glass(kind, thick), LOADED[load]
        narrowest, widest = two + 1, min(third, WIDEST)
        if narrowest <= widest:
            told += 1
            for span in narrowest, widest:
                ask(group, 0, pane(w=span, h=3 * span, **loaded), sheet)
                ask(group, 0, pane(w=3 * span, h=span, **loaded), sheet)
                ask(group, 3, pane(w=span, h=3 * span + 1, **loaded), sheet)
                ask(group, 3, pane(w=3 * span + 1, h=span, **loaded), sheet)
    differ = sum(third > two for _, _, _, (_, _, third, two) in rows())
    if (differ, told) != (34, 30):
        raise SystemExit(f"ribbons: AR=3 and two edges differ in {differ} rows, and ribbons tell them apart in {told}")


def ribbon_sides():
    """The span of a ribbon is its shorter side. Laminated toughened glass of 6 mm spans 650 with two edges, 2000 with AR=3."""
    sheet = glass(kind=3, thick=6)
    for shorter, longer, verdict in (
        (650, 1950, 0), (650, 1951, 0), (650, 2500, 0), (651, 1953, 0), (651, 1954, 3), (651, 2500, 3), (217, 652, 0),
        (666, 1998, 0), (666, 1999, 3), (1200, 5000, 3),
    ):
        ask("ribbon-sides", verdict, pane(w=shorter, h=longer), sheet)
        ask("ribbon-sides", verdict, pane(w=longer, h=shorter), sheet)
    # with two edges it is w
    for w, h, verdict in (650, 2500, 0), (2500, 650, 3), (651, 2500, 3), (650, 100, 0):
        ask("ribbon-sides", verdict, pane(2, w=w, h=h), sheet)
    # example (c): laminated heat-strengthened glass of 8 mm spans 1600 with AR=3, and 800 with two edges
    sheet = glass(kind=2, thick=8)
    for longer, verdict in (2000, 0), (2001, 0), (3000, 0), (3001, 3):
        ask("ribbon-sides", verdict, pane(w=1000, h=longer), sheet)
        ask("ribbon-sides", verdict, pane(w=longer, h=1000), sheet)


def ribbon_live_loads():
    """The live load of a ribbon. Laminated heat-strengthened glass of 10 mm spans 1600 with two edges under 0.5 kN, 250 under
    1.1 and nothing under 1.8. Monolithic glass of 10 mm spans 300 under 1.8."""
    for angle in 0, 29, 30, 45, 74:
        for awning, kind, reach in (0, 2, 250 if angle < 30 else 1600), (1, 4, 300):
            sheet = glass(kind, 10)
            ask("ribbon-live-load", 0, pane(angle=angle, awning=awning, w=reach, h=4900), sheet)
            ask("ribbon-live-load", 0, pane(angle=angle, awning=awning, w=4900, h=reach), sheet)
            ask("ribbon-live-load", 3, pane(angle=angle, awning=awning, w=reach + 1, h=4900), sheet)
            ask("ribbon-live-load", 3, pane(angle=angle, awning=awning, w=4900, h=reach + 1), sheet)
        ask("ribbon-live-load", 3, pane(angle=angle, awning=1, w=1, h=4), glass(2, 10))


# sheets of 10 mm for a ribbon of 500 by 2500, and whether its cut size of 516 by 2516 lies within
RIBBON_SHEETS = [
    (516, 2516, True), (2516, 516, True), (517, 2517, True), (2516, 2516, True), (516, 9999, True), (9999, 516, True),
    (515, 2516, False), (516, 2515, False), (2516, 515, False), (2515, 516, False), (2515, 2515, False), (515, 9999, False),
    (9999, 515, False), (517, 2515, False), (2515, 517, False), (516, 516, False), (1516, 1516, False), (2515, 9999, True),
]


def ribbon_sizes():
    """Clause 2 of ribbons in 10 mm, upright and turned."""
    for w, h, is_within in RIBBON_SHEETS:
        ask("ribbon-size", 0 if is_within else 2, pane(w=500, h=2500), glass(w=w, h=h))
        ask("ribbon-size", 0 if is_within else 2, pane(w=2500, h=500), glass(w=w, h=h))
    for span, side in (1, 17), (WIDEST, 1682):
        for it in pane(w=span, h=5000), pane(w=5000, h=span):
            for w, h, verdict in (side, 5016, 0), (5016, side, 0), (side, 5015, 2), (5015, side, 2):
                ask("ribbon-size-most", verdict, it, glass(w=w, h=h))


def ribbon_roots():
    """Clause 4 of ribbons where B*B*P is K*K or next to it, by the constant "four"."""
    for span, pressure, least in root_tables():
        if span <= WIDEST:
            it, thick = pressed(4, span, pressure, False)
            root("ribbon-roots", least, it._replace(h=3 * span + 1), thick)
            it, thick = pressed(4, span, pressure, True)
            root("ribbon-roots", least, it._replace(w=5000), thick)


# Kind and thickness, the widest ribbon for them, and the winds with their P at 45 degrees. The third is always by the wind up,
# and the second in 6 mm of kind 3, where it would be 100 by the maximum of kind 1. The others are by the wind down.
RIBBON_WINDS = [
    (3, 6, 650, [(0, 0, 25), (60, 95, 86), (0, 300, 291), (1000, 1000, 1025)]),
    (3, 12, WIDEST, [(0, 0, 50), (60, 95, 110), (0, 300, 282), (1000, 1000, 1050)]),
    (1, 12, 700, [(0, 0, 80), (60, 95, 140), (0, 300, 282), (1000, 1000, 1080)]),
    (2, 10, 1600, [(0, 0, 42), (60, 95, 102), (0, 300, 285), (1000, 1000, 1042)]),
    (4, 8, WIDEST, [(0, 0, 34), (60, 95, 94), (0, 300, 288), (1000, 1000, 1034)]),
]


def ribbon_winds():
    """P of ribbons."""
    for kind, thick, widest, winds in RIBBON_WINDS:
        for down, up, pressure in winds:
            for w, h in (200, 800), (800, 200), (widest, 5000), (5000, widest):
                pin("ribbon-wind", pressure, pane(w=w, h=h, down=down, up=up), kind=kind, thick=thick)


def ribbon_constants():
    """Clause 4 by constants as a glass has them. Over a span of 1666, "four" bears P 205 and no more, and "two" 163. At 45
    degrees, 12 mm of kind 3 has a maximum of 50: each may bear 30 more of the wind down than by that of kind 1, 80."""
    sheet = glass(thick=12, two=21304, four=23857)
    for edges, down, verdict in (
        (4, 113, 0), (4, 114, 0), (4, 126, 0), (4, 155, 0), (4, 156, 4), (2, 113, 0), (2, 114, 4), (2, 155, 4), (2, 84, 0),
    ):
        ask("ribbon-constants", verdict, pane(edges, w=1666, h=5000, down=down), sheet)
    # with h shorter
    for down, verdict in (114, 0), (126, 0), (155, 0), (156, 4):
        ask("ribbon-constants", verdict, pane(w=5000, h=1666, down=down), sheet)
    # a glass with the constants exchanged
    sheet = glass(thick=12, two=23857, four=21304)
    for down, verdict in (84, 0), (113, 0), (114, 4), (155, 4):
        ask("ribbon-constants", verdict, pane(w=1666, h=5000, down=down), sheet)
        ask("ribbon-constants", verdict, pane(w=5000, h=1666, down=down), sheet)
    # over a span of 700 a constant of 7952 bears P 129 and no more, of which kind 1 takes up 80, and kind 3 takes up 50
    sheet = glass(kind=1, thick=12, two=MOST, four=7952)
    for down, verdict in (49, 0), (50, 4), (79, 4), (80, 4):
        ask("ribbon-constants", verdict, pane(w=700, h=5000, down=down), sheet)
        ask("ribbon-constants", 4 if down == 80 else 0, pane(w=700, h=5000, down=down), sheet._replace(kind=3))


def ribbon_orders(group="ribbon-order", make=pane):
    """Every set of clauses that fail together for ribbons, as in orders. With AR=3 neither thickness would fail."""
    for w, h in (500, 2500), (2500, 500):
        # monolithic glass under 1.8 kN spans 300 with two edges at 10 mm, and 700 at 12
        for top, lack, thick, constant in itertools.product((2999, 3000), (0, 1), (12, 10), (MOST, 1)):
            covers = TWO_COVERS[thick]
            sheet = by_edges(4, constant, MOST, kind=4, thick=thick, w=2500 + covers - lack, h=500 + covers)
            verdict = first_of(top == 3000, lack == 1, thick == 10, constant == 1)
            ask(group, verdict, make(awning=1, top=top, w=w, h=h), sheet)
        # laminated annealed glass under 0.5 kN spans 250 at 10 mm, and 700 at 12
        for lack, thick, constant in itertools.product((0, 1), (12, 10), (MOST, 1)):
            covers = TWO_COVERS[thick]
            sheet = by_edges(4, constant, MOST, kind=1, thick=thick, w=500 + covers, h=2500 + covers - lack)
            ask(group, first_of(False, lack == 1, thick == 10, constant == 1), make(top=9000, w=w, h=h), sheet)


# the kinds and thicknesses with a two-edge span under 1.8 kN
AWNINGS = [(3, 12), (4, 10), (4, 12)]


def ribbon_limits():
    """The narrowest and the widest ribbons, with the largest and the smallest values."""
    for kind in KINDS:
        for thick in THICK:
            sheet = glass(kind, thick, stock=999)
            for w, h in (1, 5000), (5000, 1):
                verdict = 0 if (kind, thick) in AWNINGS else 3
                ask("ribbon-limits", 1 if kind == 4 else verdict, pane(4, 74, 1, MOST, w, h, 1000, 1000), sheet)
                ask("ribbon-limits", verdict, pane(4, 74, 1, 0, w, h, 1000, 1000), sheet)
    # 6 mm has a maximum of 25 at 45 degrees: a span of 1 needs a constant of 5, where that of kind 1, 40, would need 7
    for w, h in (1, 4), (4, 1), (1, 5000), (5000, 1):
        for constant, verdict in (1, 4), (4, 4), (5, 0), (6, 0), (MOST, 0):
            sheet = glass(3, 6, w + 12, h + 12, MOST if verdict else 1, constant, 0)
            ask("ribbon-limits", verdict, pane(4, 45, 0, 0, w, h, 0, 0), sheet)
    # P is 1071 under the highest wind, as in limits: a span of 1666 needs a constant of 54522, where P 1114 would need 55606
    for w, h in (1666, 4999), (4999, 1666), (1666, 5000), (5000, 1666):
        for constant, verdict in (MOST, 0), (55605, 0), (54522, 0), (54521, 4), (1, 4):
            sheet = glass(thick=12, two=MOST if verdict else 1, four=constant)
            ask("ribbon-limits", verdict, pane(4, 0, 0, 2999, w, h, 1000, 1000), sheet)


# the sides of the cut size of a pane of 300 by 500, by thickness
CUT_SIZES = {6: (312, 512), 8: (316, 516), 10: (316, 516), 12: (318, 518)}


def cut_sizes():
    """Clause 2 in each thickness: sheets that just cover a pane, and sheets that one side alone makes too small, by a
    millimetre or by two covers. Panes and sheets are upright and turned. With two edges, both sides take the cover too."""
    for thick, (shorter, longer) in CUT_SIZES.items():
        for w, h, verdict in (
            (shorter, longer, 0), (shorter - 1, longer, 2), (shorter, longer - 1, 2), (300, longer, 2), (shorter, 500, 2),
            (shorter, 9999, 0), (shorter - 1, 9999, 2),
        ):
            for edges in 2, 4:
                for it in pane(edges, w=300, h=500), pane(edges, w=500, h=300):
                    ask("cut-size", verdict, it, glass(thick=thick, w=w, h=h))
                    ask("cut-size", verdict, it, glass(thick=thick, w=h, h=w))


def cut_size_ways():
    """By its sight size, a pane of 490 by 480 lies within these sheets both ways. By its cut size it does so one way or not at
    all: the longer side is then over 500, and the shorter at most 498."""
    for thick, longer in (6, 502), (8, 506), (10, 506), (12, 508):
        for w, h, verdict in (longer, 500, 0), (longer - 1, 500, 2), (longer - 1, longer - 1, 2), (500, 500, 2), (490, 490, 2):
            for edges in 2, 4:
                for it in pane(edges, w=490, h=480), pane(edges, w=480, h=490):
                    ask("cut-size-ways", verdict, it, glass(thick=thick, w=w, h=h))
                    ask("cut-size-ways", verdict, it, glass(thick=thick, w=h, h=w))


def cut_size_most():
    """The largest pane, against which clause 3 stands where the sheet covers it; and 2000 by 5000, which laminated toughened
    glass spans in every thickness."""
    for thick, shorter, longer in (6, 2012, 5012), (8, 2016, 5016), (10, 2016, 5016), (12, 2018, 5018):
        for w, h, verdict in (
            (longer, longer, 3), (longer - 1, longer, 2), (longer, longer - 1, 2), (longer - 1, longer - 1, 2), (5000, 5000, 2),
            (longer, 9999, 3), (longer - 1, 9999, 2),
        ):
            for edges in 2, 4:
                ask("cut-size-most", verdict, pane(edges, w=5000, h=5000), glass(thick=thick, w=w, h=h))
        for w, h, verdict in (shorter, longer, 0), (shorter - 1, longer, 2), (shorter, longer - 1, 2), (2000, 5000, 2):
            ask("cut-size-most", verdict, pane(w=2000, h=5000), glass(thick=thick, w=w, h=h))
            ask("cut-size-most", verdict, pane(w=5000, h=2000), glass(thick=thick, w=w, h=h))


def cut_size_least():
    """Sheets smaller than two covers, as large as two covers, and a millimetre larger: these cover a pane of 1 by 1."""
    for thick, least in (6, 13), (8, 17), (10, 17), (12, 19):
        for edges in 2, 4:
            small, other = pane(edges, w=1, h=1), pane(edges, w=200, h=200)
            for side in 1, 2, 6, 8, 9, 11, 12, 13, 15, 16, 17, 18, 19:
                sheet = glass(thick=thick, w=side, h=side)
                ask("cut-size-least", 0 if side >= least else 2, small, sheet)
                ask("cut-size-least", 2, other, sheet)
            for w, h in (1, 9999), (least - 1, 9999), (9999, least - 1):
                ask("cut-size-least", 2, small, glass(thick=thick, w=w, h=h))
                ask("cut-size-least", 2, other, glass(thick=thick, w=w, h=h))


# how much longer the sides of a sheet are than those of a pane, and the thicknesses in which it covers the pane
COVERED = [
    (0, ()), (6, ()), (8, ()), (9, ()), (11, ()), (12, (6,)), (13, (6,)), (15, (6,)), (16, (6, 8, 10)), (17, (6, 8, 10)),
    (18, THICK), (19, THICK),
]


def cut_size_thicknesses():
    """The same pane and the same sheet in each thickness."""
    for more, covered in COVERED:
        for thick in THICK:
            sheet = glass(thick=thick, w=400 + more, h=450 + more)
            for edges in 2, 4:
                for it in pane(edges, w=400, h=450), pane(edges, w=450, h=400):
                    ask("cut-size-thickness", 0 if thick in covered else 2, it, sheet)


def covered_or_not(group, verdict, it, sheet):
    """A pane with the sheet of its cut size, and with sheets that lack a millimetre, against which clause 2 stands."""
    ask(group, verdict, it, sheet)
    ask(group, 2, it, sheet._replace(w=sheet.w - 1))
    ask(group, 2, it, sheet._replace(h=sheet.h - 1))


def cut_size_fields():
    """Nothing but the sides and the thickness has a say in clause 2. Glass of 12 mm serves a pane of 200 by 240 in every kind
    and under every live load."""
    group, it = "cut-size-fields", pane(w=200, h=240)
    for other in (
        it, it._replace(edges=2), it._replace(angle=0), it._replace(angle=74), it._replace(awning=1), it._replace(top=0),
        it._replace(top=2999), it._replace(down=1000, up=1000),
    ):
        for kind in KINDS:
            covered_or_not(group, 0, other, covering(other, kind, 12))
        for stock in 0, 999:
            covered_or_not(group, 0, other, covering(other, thick=12, stock=stock))
        # a span of 200 under P 1050 needs a constant of 6481
        covered_or_not(group, 0, other, covering(other, thick=12, two=6481, four=6481))
    # every kind in the other thicknesses
    for kind, thick in itertools.product(KINDS, (6, 8, 10)):
        covered_or_not(group, 0, it, covering(it, kind, thick))


def cut_size_orders():
    """Clause 1 stands before clause 2, whatever the sheet; clauses 3 and 4 stand behind it."""
    group, it = "cut-size-order", pane(w=200, h=240)
    for w, h in (218, 258), (217, 258), (218, 257), (200, 240), (1, 1):
        ask(group, 1, it._replace(top=3000), glass(4, 12, w, h))
    # laminated annealed glass of 12 mm spans 275 on an awning
    wide = pane(awning=1, w=276, h=300)
    covered_or_not(group, 3, wide, covering(wide, 1, 12))
    covered_or_not(group, 4, it, covering(it, thick=12, four=1))
    # a dash
    covered_or_not(group, 3, it._replace(awning=1), covering(it, 1, 10))


# kind, thickness and live load, and the edges and sides of a pane whose span is the entry: with AR=1, AR=2, AR=3, two edges and
# as a ribbon
ENTRIES = [
    (3, 6, "1.1", 4, 1100, 1100), (2, 6, "0.5", 4, 1500, 3000), (2, 6, "0.5", 4, 1200, 3600), (3, 6, "0.5", 2, 650, 900),
    (4, 6, "0.5", 4, 700, 2800),
    (1, 8, "0.5", 4, 1400, 1400), (2, 8, "0.5", 4, 1800, 3600), (2, 8, "0.5", 4, 1600, 4800), (2, 8, "0.5", 2, 800, 700),
    (4, 8, "1.1", 4, 400, 2000),
    (1, 10, "1.1", 4, 550, 550), (1, 10, "0.5", 4, 1900, 3800), (1, 10, "0.5", 4, 1700, 4900), (2, 10, "0.5", 2, 1600, 1800),
    (1, 10, "0.5", 4, 250, 1000),
    (1, 12, "1.1", 4, 1200, 1200), (1, 12, "1.1", 4, 825, 1650), (2, 12, "0.5", 4, 1950, 4900), (2, 12, "0.5", 2, 1950, 400),
    (1, 12, "0.5", 4, 700, 4900),
]


def sight_spans():
    """Clause 3 reads the span off the sight size: panes at the entry, on sheets of their cut size, and panes with both sides a
    millimetre longer, which read the same column."""
    for kind, thick, load, edges, w, h in ENTRIES:
        it, above = [pane(edges, w=w + more, h=h + more, **LOADED[load]) for more in (0, 1)]
        ask("sight-span", 0, it, covering(it, kind, thick))
        ask("sight-span", 3, above, covering(above, kind, thick))
        ask("sight-span", 2, above, covering(it, kind, thick))


def sight_uniform_loads():
    """Clause 4 reads the span off the sight size: 600 under P 100 needs a constant of 6000. Clause 3 allows at least 650."""
    # at 45 degrees the maximum of tempered glass is 25, 34, 42 and 50
    for thick, down in (6, 75), (8, 66), (10, 58), (12, 50):
        for edges, w, h in (2, 600, 900), (2, 600, 500), (4, 600, 600), (4, 900, 600), (4, 600, 1800), (4, 2500, 600):
            sheet = dict(w=w + TWO_COVERS[thick], h=h + TWO_COVERS[thick])
            root("sight-uniform-load", 6000, pane(edges, w=w, h=h, down=down), thick, **sheet)


# kind, thickness and live load, the shorter side of a pane, and longer sides with their verdicts
PROPORTIONS = [
    # AR=1 has 400, 1400, 2000 and 1200, and AR=2 less
    (1, 6, "0.5", 400, [(400, 0), (401, 3)]), (1, 8, "0.5", 1400, [(1400, 0), (1401, 3)]),
    (1, 10, "0.5", 2000, [(2000, 0), (2001, 3)]), (1, 12, "1.1", 1200, [(1200, 0), (1201, 3)]),
    # AR=2 has 1500, 1800, 1900 and 2000, AR=3 has 1200, 1600, 1700 and 1900; the cut sizes of the last are 2 to 1
    (2, 6, "0.5", 1300, [(2600, 0), (2601, 3), (2612, 3)]), (2, 8, "0.5", 1700, [(3400, 0), (3401, 3), (3416, 3)]),
    (1, 10, "0.5", 1800, [(3600, 0), (3601, 3), (3616, 3)]), (1, 12, "0.5", 1950, [(3900, 0), (3901, 3), (3918, 3)]),
    # AR=3 has 2000, 1600, 1700 and 1900, ribbons have 650, 800, 250 and 700; the cut sizes of the last are 3 to 1
    (3, 6, "0.5", 700, [(2100, 0), (2101, 3), (2124, 3)]), (2, 8, "0.5", 1000, [(3000, 0), (3001, 3), (3032, 3)]),
    (1, 10, "0.5", 1000, [(3000, 0), (3001, 3), (3032, 3)]), (1, 12, "0.5", 1000, [(3000, 0), (3001, 3), (3036, 3)]),
    # AR=2 has 275, AR=3 a dash; the cut size of 18 by 54 is 36 by 72
    (1, 12, "1.8", 18, [(18, 0), (36, 0), (37, 3), (54, 3)]),
]


def sight_proportions():
    """The proportion is that of the sight size. The cut size is nearer to a square: it would read AR=2 up to two covers beyond
    2 to 1, and AR=3 up to four covers beyond 3 to 1. Up to 2 to 1, and of a square, it reads the same column."""
    for kind, thick, load, shorter, sides in PROPORTIONS:
        for longer, verdict in sides:
            it = pane(w=shorter, h=longer, **LOADED[load])
            sheet = covering(it, kind, thick)
            ask("sight-proportion", verdict, it, sheet)
            ask("sight-proportion", verdict, it._replace(w=longer, h=shorter), sheet)


# The classes and zones in which the wind down gives P at some angle and thickness; the wind up does so in all. With tempered
# glass, whose maximum is less, three of those of kind 1 are none: N2 in zone 2, and N5 and C2 in zone 1.
DOWN_GIVES_P = {
    "annealed": [(1, 1), (1, 2), (2, 1), (2, 2), (3, 1), (4, 1), (5, 1), (7, 1), (8, 1)],
    "tempered": [(1, 1), (1, 2), (2, 1), (3, 1), (4, 1), (7, 1)],
}


def house_winds():
    """P of each class and zone in each thickness, by the wind down and by the wind up where these give it: with four edges at
    the least such angle, and with two at the greatest. By the wind down also with kind 1, where it spans anything."""
    given = {"down": set(), "up": set(), "down-annealed": set()}
    for (wind, zone), thick in itertools.product(CLASSES, THICK):
        down, up = pressures(wind, zone)
        upward = [up - dead_load(MINIMUM, angle, thick) for angle in range(75)]
        for name, kind in ("down", 3 + zone % 2), ("up", 3 + zone % 2), ("down-annealed", 1):
            downward = [down + dead_load(MAXIMUM[kind], angle, thick) for angle in range(75)]
            ones, others = (upward, downward) if name == "up" else (downward, upward)
            angles = [angle for angle in range(75) if ones[angle] > others[angle]]
            for edges, angle in ((4, angles[0]), (2, angles[-1])) if angles else []:
                given[name].add((wind, zone))
                shape = TWO_EDGES[wind % 3] if edges == 2 else FOUR_EDGES[(wind + thick // 2) % 5]
                if kind == 1:
                    shape = sides(kind, thick, angle, edges, wind)
                if shape:
                    it = house(edges, angle, w=shape[0], h=shape[1], wind=wind, zone=zone)
                    pin(f"house-{name}-edges-{edges}", ones[angle], it, kind=kind, thick=thick)
    if given != {"down": set(DOWN_GIVES_P["tempered"]), "up": set(CLASSES), "down-annealed": set(DOWN_GIVES_P["annealed"])}:
        raise SystemExit(f"houses: P is given by {given}")


def house_figures():
    """Where the wind down gives no P, no verdict shows it. So the figures of both readings are compared too."""
    for wind, zone in CLASSES:
        if clauses.wind(house(wind=wind, zone=zone)) != pressures(wind, zone):
            raise SystemExit(f"houses: class {wind} in zone {zone} is read in two ways")


def house_orders():
    """Each class and zone with a glass that passes, and with one that fails by each clause. Under 1.8 kN, laminated toughened
    glass spans 1400 at 8 mm, and 350 at 6."""
    for wind, zone in CLASSES:
        it = house(awning=1, top=3000, w=1000, h=1000, wind=wind, zone=zone)
        sheet = covering(it, thick=8)
        for verdict, other in (
            (0, sheet), (1, sheet._replace(kind=4)), (2, sheet._replace(h=sheet.h - 1)), (3, sheet._replace(thick=6)),
            (4, sheet._replace(four=1)),
        ):
            ask("house-order", verdict, it, other)


def house_numbers():
    """The numbers of a class and a zone are small pressures on the line of another pane: at 45 degrees, 10 mm of tempered glass
    has a maximum of 42 and a minimum of 15. What bears them does not bear the class."""
    for wind, zone in CLASSES:
        pin("house-numbers", 42 + wind, pane(down=wind, up=zone))
        ask("house-numbers", 4, house(wind=wind, zone=zone), by_edges(4, least_constant(200, 42 + wind), 1))


# Class and zone, kind and thickness, and P at 45 degrees. It is by the wind down in the first four. For C1 in zone 1 with 10 mm
# it is so with kind 1 alone.
HOUSES = [
    (1, 1, 3, 8, 78), (2, 1, 3, 12, 110), (2, 1, 1, 12, 140), (7, 1, 1, 10, 210), (7, 1, 3, 10, 201), (7, 1, 4, 10, 201),
    (7, 1, 2, 10, 201), (3, 2, 3, 10, 255), (7, 1, 3, 6, 207), (10, 2, 3, 12, 980),
]


def house_ribbons():
    """House panes as ribbons, on sheets of their cut size: P, and the spans of the two-edge column."""
    for wind, zone, kind, thick, pressure in HOUSES:
        for w, h in (200, 800), (900, 240):
            sheet = dict(kind=kind, thick=thick, w=w + TWO_COVERS[thick], h=h + TWO_COVERS[thick])
            pin("house-ribbon", pressure, house(w=w, h=h, wind=wind, zone=zone), **sheet)
    # laminated annealed glass of 12 mm spans 700 with two edges, and 1900 with AR=3
    for w, h, verdict in (700, 2101, 0), (2101, 700, 0), (701, 2103, 0), (701, 2104, 3), (2104, 701, 3):
        it = house(w=w, h=h, wind=8, zone=2)
        ask("house-ribbon", verdict, it, covering(it, 1, 12))


def house_cut_sizes():
    """Clause 2 of house panes in each thickness."""
    for thick, (wind, zone) in zip(THICK, ((1, 2), (6, 1), (7, 2), (10, 1))):
        for edges in 2, 4:
            it = house(edges, w=240, h=300, wind=wind, zone=zone)
            covered_or_not("house-cut-size", 0, it, covering(it, thick=thick))


# From here on, several requests of document 02 meet: house panes as ribbons or with two edges, their cut size, and the maximum
# of tempered glass.


def house_sheets():
    """Clause 2 of house panes in each thickness, as ribbons and with two edges: sheets that just cover a pane, and sheets that
    one side alone makes too small, by a millimetre or by two covers. Panes and sheets are upright and turned."""
    for group, edges, shorter, longer in ("house-ribbon-cut-size", 4, 300, 1500), ("house-two-edges-cut-size", 2, 300, 500):
        for thick, (wind, zone) in zip(THICK, ((1, 2), (6, 1), (7, 2), (10, 1))):
            first, second = shorter + TWO_COVERS[thick], longer + TWO_COVERS[thick]
            upright = house(edges, w=shorter, h=longer, wind=wind, zone=zone)
            for w, h, verdict in (
                (first, second, 0), (first - 1, second, 2), (first, second - 1, 2), (shorter, second, 2), (first, longer, 2),
            ):
                for it in upright, upright._replace(w=longer, h=shorter):
                    ask(group, verdict, it, glass(thick=thick, w=w, h=h))
                    ask(group, verdict, it, glass(thick=thick, w=h, h=w))


def house_proportions():
    """House panes beside 3 to 1, on sheets of their cut size and on sheets that lack a millimetre. No cut size is over 3 to 1."""
    for kind, thick, load, shorter, sides in PROPORTIONS:
        for longer, verdict in sides if sides[0][0] == 3 * shorter else []:
            it = house(w=shorter, h=longer, wind=4, zone=2, **LOADED[load])
            for turned in it, it._replace(w=longer, h=shorter):
                covered_or_not("house-proportion", verdict, turned, covering(turned, kind, thick))


def house_ribbon_orders():
    """Every set of clauses that fail together for house panes as ribbons."""
    ribbon_orders("house-ribbon-order", house)


def house_tops():
    """Clause 1 of house panes: of ribbons of each class and zone, and of others."""
    for wind, zone in CLASSES:
        ribbon = house(w=200, h=800, wind=wind, zone=zone)
        shapes = [ribbon, ribbon._replace(w=800, h=200)]
        if wind == 7:
            shapes += [ribbon._replace(edges=2), ribbon._replace(h=200)]
        for it, top in itertools.product(shapes, (2999, 3000)):
            ask("house-top", 1 if top == 3000 else 0, it._replace(top=top), glass(4, 12))
            ask("house-top", 0, it._replace(top=top), glass(3, 12))


def house_spans():
    """Each of the 48 spans of the two-edge column, as house panes read it with two edges and as ribbons: at the entry, and a
    millimetre above. An entry above the widest ribbon stops none, and a dash lets none pass."""
    for (kind, load, thick, (*_, two)), (wind, zone), h in zip(rows(), 3 * CLASSES, 16 * (1, 700, 5000)):
        it, sheet, reach = house(wind=wind, zone=zone, **LOADED[load]), glass(kind, thick), min(two, WIDEST)
        if two:
            ask("house-two-edges-span", 0, it._replace(edges=2, w=two, h=h), sheet)
        ask("house-two-edges-span", 3, it._replace(edges=2, w=two + 1, h=h), sheet)
        # the shortest of them with w longer, and the longest with h longer
        for shape in ribbons_of(reach)[1:3] if reach else []:
            ask("house-ribbon-span", 0, it._replace(**shape), sheet)
        for shape in ribbons_of(reach + 1)[1:3] if reach < WIDEST else []:
            ask("house-ribbon-span", 3, it._replace(**shape), sheet)


def house_ribbon_classes():
    """P of ribbons of each class and zone by the wind up, on sheets of their cut size: in 6 mm of kinds 3 and 4, and in 12 mm of
    kind 1. At 74 degrees these have a minimum of 3 and of 6."""
    for turn, (wind, zone) in enumerate(CLASSES):
        w, h = ((200, 800), (900, 240))[wind % 2]
        it, up = house(angle=74, w=w, h=h, wind=wind, zone=zone), UP[zone][wind - 1]
        pin("house-ribbon-class", up - 3, it, kind=3 + turn % 3 % 2, thick=6, w=w + 12, h=h + 12)
        if zone == 2:
            pin("house-ribbon-class", up - 6, it, kind=1, thick=12, w=w + 18, h=h + 18)


# The classes and zones of which the wind down gives P at 30 degrees in 12 mm of every kind, and two of which the wind up does:
# the maximum there is 98 with kind 1 and 61 with the others, and the minimum 22.
LOADED_HOUSES = [
    (1, 1, 142, 105), (1, 2, 142, 105), (2, 1, 158, 121), (3, 1, 193, 156), (4, 1, 239, 202), (7, 1, 241, 204),
    (3, 2, 248, 248), (10, 2, 976, 976),
]


def house_kinds():
    """P of house panes in every kind, as ribbons, with two edges, and with four as others."""
    for group, edges, w, h in ("ribbon", 4, 800, 200), ("edges-2", 2, 200, 70), ("edges-4", 4, 200, 390):
        for (wind, zone, annealed, tempered), kind in itertools.product(LOADED_HOUSES, KINDS):
            it = house(edges, 30, w=w, h=h, wind=wind, zone=zone)
            pin(f"house-kind-{group}", annealed if kind == 1 else tempered, it, kind=kind, thick=12)


def given_by_class(it, kind, thick):
    """What the wind down and the wind up on a house pane give, of which P is the larger."""
    down, up = pressures(it.wind, it.zone)
    return {"down": down + dead_load(MAXIMUM[kind], it.angle, thick), "up": up - dead_load(MINIMUM, it.angle, thick)}


# The angle of each row, and a thickness and a kind of tempered glass that spans a ribbon there and a degree to each side
HOUSE_ROWS = [
    (0, 12, 2), (5, 10, 3), (10, 8, 4), (15, 12, 3), (20, 10, 4), (25, 10, 2), (30, 8, 3), (35, 6, 4), (40, 12, 2), (45, 8, 2),
    (50, 6, 3), (55, 10, 4), (60, 8, 3), (65, 12, 2), (70, 12, 4), (75, 12, 3),
]
# those where the wind down gives P of N1 in zone 2: it does so in 12 mm alone, and under 35 degrees
HOUSE_ROWS_NEAR = [(0, 12, 2), (5, 12, 3), (10, 12, 4), (15, 12, 2), (20, 12, 3), (25, 12, 4), (30, 12, 2)]


def house_rows():
    """P of ribbons by class in tempered glass, at the angle of each row and a degree to each side: by the wind down with the row
    at or next below, and by the wind up with the row at or next above."""
    for name, other, wind, zone, table in (
        ("down", "up", 1, 1, HOUSE_ROWS), ("down", "up", 1, 2, HOUSE_ROWS_NEAR),
        ("up", "down", 9, 1, HOUSE_ROWS), ("up", "down", 7, 2, HOUSE_ROWS),
    ):
        for (row, thick, kind), step in itertools.product(table, (-1, 0, 1)):
            if row + step in range(75):
                w, h = ((800, 200), (200, 5000), (200, 800))[step]
                it = house(angle=row + step, w=w, h=h, wind=wind, zone=zone)
                given = given_by_class(it, kind, thick)
                if given[name] <= given[other]:
                    raise SystemExit(f"house-rows: at {it.angle} degrees the wind {name} does not give P in zone {zone}")
                pin(f"house-rows-{name}-zone-{zone}", given[name], it, kind=kind, thick=thick)


# Class and zone, angle and thickness, and P with kind 1 and with tempered glass. With kind 1 it is by the wind down. With the
# others, whose maximum is less, it is by the wind up; the last two are where both winds then give the same.
CHOSEN = [
    (1, 1, 70, 8, 70, 63), (1, 2, 36, 12, 138, 105), (2, 1, 70, 12, 98, 85), (2, 2, 30, 12, 158, 151), (3, 1, 35, 8, 158, 135),
    (4, 1, 10, 10, 235, 200), (5, 1, 30, 12, 305, 303), (7, 1, 26, 10, 230, 198), (8, 1, 31, 12, 310, 299),
    (4, 1, 5, 10, 236, 200), (7, 1, 41, 12, 231, 198),
]


def house_chosen():
    """House panes of which the maximum decides which wind gives P, in each class and zone where it can. They are ribbons if the
    glass spans one. One below the least constant for the P of kind 1 fails with kind 1, and passes with the others."""
    if {row[:2] for row in CHOSEN} != set(DOWN_GIVES_P["annealed"]):
        raise SystemExit("house-chosen: not in each class and zone of which the wind down gives P with kind 1")
    for wind, zone, angle, thick, annealed, tempered in CHOSEN:
        for kind in KINDS:
            w, h = (200, 200) if (kind, thick) in NO_SPAN["1.1" if angle < 30 else "0.5", 2] else (800, 200)
            it = house(angle=angle, w=w, h=h, wind=wind, zone=zone)
            pin("house-chosen", annealed if kind == 1 else tempered, it, kind=kind, thick=thick)
            if kind != 1:
                ask("house-chosen", 0, it, by_edges(4, least_constant(200, annealed) - 1, 1, kind=kind, thick=thick))


def house_two_edges():
    """P of house panes with two edges, whose span is w whatever h is."""
    for wind, zone, kind, thick, pressure in HOUSES:
        for h in 1, 80, 240, 700, 5000:
            pin("house-two-edges", pressure, house(2, w=240, h=h, wind=wind, zone=zone), kind=kind, thick=thick)


def house_ribbon_limits():
    """The narrowest and the widest ribbons in the strongest wind, which is up."""
    for kind, thick in itertools.product(KINDS, THICK):
        verdict = 0 if (kind, thick) in AWNINGS else 3
        for top, stated in (MOST, 1 if kind == 4 else verdict), (0, verdict):
            for w, h in (1, 5000), (5000, 1):
                ask("house-ribbon-limits", stated, house(4, 74, 1, top, w, h, 10, 2), glass(kind, thick, stock=999))
    # 12 mm has a minimum of 18 at 45 degrees and of 26 at 0: P is 980 and 972
    for angle, span, longer, least in (45, 1, 4, 32), (45, 1, 5000, 32), (0, 1666, 4999, 51941), (0, 1666, 5000, 51941):
        for w, h in (span, longer), (longer, span):
            root("house-ribbon-limits", least, house(4, angle, w=w, h=h, wind=10, zone=2), 12, w=w + 18, h=h + 18)


def most_houses():
    """256 pane lines: panes with the pressures of each class and zone, and the house panes themselves, in turn. At 74 degrees,
    6 mm has a maximum of 12 and a minimum of 3, so the wind up gives P. The last panes are asked with glasses that just bear
    it, and with glasses that do not."""
    houses = [house(angle=74, wind=wind, zone=zone) for wind, zone in CLASSES]
    panes = [(n + 1, houses[n // 2 % 20] if n % 2 else by_pressures(houses[n // 2 % 20])) for n in range(256)]
    least = [least_constant(200, UP[zone][wind - 1] - 3) for wind, zone in CLASSES]
    constants = least + [constant - 1 for constant in least]
    glasses = [(n + 1, glass(thick=6, two=1, four=constant)) for n, constant in enumerate(constants)]
    put("most-houses.job", "accepted 40 256", file_of("most houses\n", glasses, panes))
    asked = [(n + 1, n // 2 % 20 + 1 + more, verdict) for n in range(216, 256) for more, verdict in ((0, 0), (20, 4))]
    run("most-houses.job", [id for p, g, _ in asked for id in (p, g)], [f"{p} {g} {spelled(it)}" for p, g, it in asked])


def paper_job():
    """The job of document 01, with no ids: every pane with every glass, in file order. Its pressures are those of N2 in zone 1,
    so it is also run by that."""
    canopy = (CRATE.parent.parent / "examples" / "canopy.job").read_bytes()
    houses = canopy.replace(b"P", b"Q").replace(b" 60 95\n", b" 2 1\n")
    for name, file in ("canopy.job", canopy), ("canopy-houses.job", houses):
        put(name, "accepted 2 2", file)
        run(name, [], ["1 9 passes", "1 7 passes", "2 9 passes", "2 7 fails 3"])
        run(name, [2, 7, 1, 7, 7, 2, 2, 1], ["2 7 fails 3", "1 7 passes", "7 2 refused 10 0", "2 1 refused 11 0"])


# ids that begin alike, that differ by a multiple of 256 and that stand in no order; pane n fits into the glasses from n on, the
# first of which have its cut size
PANE_IDS = (77, 7, 9999, 1, 333, 589, 5)
GLASS_IDS = (5, 66, 1, 261, 7, 9999, 777)


def every_pair():
    """Of panes alone, and of house panes and others in turn."""
    glasses = [(id, glass(w=100 * n + 16, h=100 * n + 16)) for n, id in enumerate(GLASS_IDS, 1)]
    answers = {
        (p, g): f"{p} {g} {spelled(0 if n <= m else 2)}"
        for n, p in enumerate(PANE_IDS) for m, g in enumerate(GLASS_IDS)
    }
    asked = sorted(answers)
    for name, makes in ("ids", (pane, pane)), ("house-ids", (pane, house)):
        panes = [(id, makes[n % 2](w=100 * n, h=100 * n)) for n, id in enumerate(PANE_IDS, 1)]
        put(f"{name}.job", "accepted 7 7", file_of(f"{name}\n", glasses, panes))
        run(f"{name}.job", [], list(answers.values()))
        run(f"{name}.job", [id for question in asked for id in question], [answers[question] for question in asked])


def unknown_ids():
    """Number 10 comes before 11. An id of the other part is none."""
    none = (0, 2, 4294967295, 99999, 9998, 10000, 65541, 65536, 2147483648, 4294967294)
    asked = []
    for id in (*none, 66, 261, 777):
        asked += [(id, 5, 10), (id, 4, 10), (id, id, 10)]
    for id in (*none, 77, 333, 589):
        asked += [(5, id, 11), (9999, id, 11)]
    asked += [(0, 0, 10), (0, 9999, 10), (9999, 0, 11), (99999, 99999, 10)]
    words = [id for p, g, _ in asked for id in (p, g)]
    for name in "ids.job", "house-ids.job":
        run(name, words, [f"{p} {g} refused {number} 0" for p, g, number in asked])


def wrong_ids():
    """What is no id, and an id with none beside it. Zeros in front make no other number."""
    words = "5x 5 5 5x 4294967296 5 7 9999999999 00000000005 5 0000000005 0000000777 5 7-"
    run_words("ids.job", words.split(), [
        "5x is not an id", "5 has no glass id beside it", "4294967296 is not an id", "7 has no glass id beside it",
        "00000000005 is not an id", "5 777 passes", "5 has no glass id beside it",
    ])
    run_words("ids.job", [5, 777, 5], ["5 777 passes", "5 has no glass id beside it"])
    run_words("./ids.job", [7, 66], ["7 66 passes"])


def empty_parts():
    put("no-panes.job", "accepted 1 0", file_of("no panes\n", [(1, glass())], []))
    put("no-glasses.job", "accepted 0 1", file_of("no glasses\n", [], [(1, pane())]))
    put("no-lines.job", "accepted 0 0", b"T 00000 00000\n")
    for name in "no-panes.job", "no-glasses.job", "no-lines.job":
        run(name, [], [])
    run("no-panes.job", [1, 1, 0, 0], ["1 1 refused 10 0", "0 0 refused 10 0"])
    run("no-glasses.job", [1, 1, 2, 1, 0, 0], ["1 1 refused 11 0", "2 1 refused 10 0", "0 0 refused 10 0"])
    run("no-lines.job", [1, 1], ["1 1 refused 10 0"])


def most_lines():
    """64 glasses and 256 panes: glass n serves the panes up to 4 times n."""
    panes = [(9000 + n, pane(w=n, h=n)) for n in range(1, 257)]
    glasses = [(9000 + n, glass(w=4 * n + 16, h=4 * n + 16)) for n in range(1, 65)]
    put("most-lines.job", "accepted 64 256", file_of("most lines\n", glasses, panes))
    asked = [(1, 1, 0), (1, 64, 0), (256, 1, 2)]
    for n in range(1, 65):
        asked += [(4 * n, n, 0)] + [(4 * n + 1, n, 2)] * (n < 64)
    words = [9000 + id for p, g, _ in asked for id in (p, g)]
    run("most-lines.job", words, [f"{9000 + p} {9000 + g} {spelled(verdict)}" for p, g, verdict in asked])


def most_bytes():
    """The longest file, and two that are too long."""
    entries = [(3, glass())], [(4, pane())]
    bare = len(file_of("", *entries))
    put("most-bytes.job", "accepted 1 1", file_of(" " * (65535 - bare), *entries))
    put("one-byte-more.job", "refused 1 0", file_of(" " * (65536 - bare), *entries))
    put("far-too-long.job", "refused 1 0", file_of(" " * (70000 - bare), *entries))
    run("most-bytes.job", [4, 3, 3, 4, 4, 4], ["4 3 passes", "3 4 refused 10 0", "4 4 refused 11 0"])
    for name in "one-byte-more.job", "far-too-long.job":
        run(name, [], ["refused 1 0"])
        run(name, [4, 3, 0, 0], ["4 3 refused 1 0", "0 0 refused 1 0"])


def refused_files():
    """A refused file has no other answer, whatever the ids. A ribbon is no cause."""
    sheet, window = lines([(1, glass())]), lines([(1, pane())])
    body, behind = sheet + window, len(sheet)

    def trailer(file, glass_at, pane_at):
        return file + b"T %05d %05d\n" % (glass_at, pane_at)

    def behind_body(*entry):
        return trailer(body + lines([entry]), 0, behind)

    ribbon, panes = lines([(2, pane(w=100, h=301))]), lines([(id, pane()) for id in range(1, 257)])
    for name, cause, offset, file in (
        ("cause-1", 1, 0, b"T 00000 0000\n"), ("cause-2", 2, len(body), body + b"T 00000 000xx\n"),
        ("cause-3", 3, len(body), trailer(body, behind, 0)), ("cause-4", 4, len(body), trailer(body + b"P 2\n", 0, behind)),
        ("cause-5", 5, len(body), behind_body(2, pane(angle=75))), ("cause-6", 6, len(body), behind_body(1, pane())),
        ("cause-8", 8, len(sheet + panes), trailer(sheet + panes + ribbon, 0, behind)),
        ("house-wind-11", 5, len(body), behind_body(2, house(wind=11))),
        ("house-zone-3", 5, len(body), behind_body(2, house(zone=3))),
        ("house-of-pressures", 5, len(body), behind_body(2, house(wind=60, zone=95))),
        ("house-id-of-a-pane", 6, len(body), behind_body(1, house())),
        ("house-lower-case", 4, len(body), trailer(body + lines([(2, house())]).lower(), 0, behind)),
        ("house-among-glasses", 4, len(sheet), trailer(sheet + lines([(2, house())]), 0, len(sheet + lines([(2, house())])))),
    ):
        name, answer = f"{name}.job", f"refused {cause} {offset}"
        put(name, answer, file)
        run(name, [], [answer])
        run(name, [1, 1, 0, 0, 9999, 1, 1, 9999], [f"{pair} {answer}" for pair in ("1 1", "0 0", "9999 1", "1 9999")])
    put("ribbon.job", "accepted 1 2", trailer(body + ribbon, 0, behind))
    run("ribbon.job", [], ["1 1 passes", "2 1 passes"])
    run("ribbon.job", [2, 1, 3, 1, 2, 9999], ["2 1 passes", "3 1 refused 10 0", "2 9999 refused 11 0"])


def no_files():
    """What is not a file gives one line, whatever the ids. The last id stands alone."""
    run_words("no-such-file.job", [], ["not opened"])
    run_words("no-such-file.job", [1, 1, 2], ["not opened"])
    run_words("", [], ["not opened"])
    run_words(".", [], ["not read"])
    run_words(".", [1, 1], ["not read"])
    run_words("ids.job", [5], ["5 has no glass id beside it"])


def write():
    shutil.rmtree(CRATE / "data", ignore_errors=True)
    (CRATE / "data").mkdir()
    for name, file in FILES.items():
        (CRATE / "data" / name).write_bytes(file)
    answers = [line for _, lines in RUN for line in lines]
    (CRATE / "args").write_text("".join(f"{word}\n" for words, _ in RUN for word in words))
    (CRATE / "stdout").write_text("".join(f"{line}\n" for line in answers))
    counts = [f"{sum(line.endswith(text) for line in answers)} {text}" for text in map(spelled, range(5))]
    print(f"{len(FILES)} files, {len(answers)} lines, of which", ", ".join(counts))


for group in (
    spans, columns, dead_loads, dead_loads_by_kind, eased, paper_loads, rounded, governed, kinds, sizes, roots, orders, winds,
    live_loads, limits, stocks, ribbon_spans, ribbon_columns, ribbon_sides, ribbon_live_loads, ribbon_sizes, ribbon_roots,
    ribbon_winds, ribbon_constants, ribbon_orders, ribbon_limits, cut_sizes, cut_size_ways, cut_size_most, cut_size_least,
    cut_size_thicknesses, cut_size_fields, cut_size_orders, sight_spans, sight_uniform_loads, sight_proportions, house_winds,
    house_figures, house_orders, house_numbers, house_ribbons, house_cut_sizes, house_sheets, house_proportions,
    house_ribbon_orders, house_tops, house_spans, house_ribbon_classes, house_kinds, house_rows, house_chosen, house_two_edges,
    house_ribbon_limits,
):
    group()
paper_job()
for jobs in JOBS.values():
    for job in jobs:
        job.put()
for group in every_pair, unknown_ids, wrong_ids, empty_parts, most_lines, most_houses, most_bytes, refused_files, no_files:
    group()
write()
