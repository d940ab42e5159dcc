"""Writes the vectors of place_job: the job files in data/, their names in args and what is due of each in stdout.

Run `python3 generate.py`. Each job is made so that a full placing of it exists, or that so many panes are left over by any
placing that serves the most, and that is stated here from document 01 and document 02, 2026-01 to 2026-06. Nothing is written
where placing.py, which finds it by the verdicts of judge_job's clauses.py, says otherwise, or where reader.py of check_job's
vectors reads a file otherwise. By how many the jobs named roof-*-short, eased-roof-*, mixed-roof-* and runs-*-short are short
is not known from how they are made, and was taken from placing.py: of the runs it finds the number by two ways, of the roofs by
the flow alone. Ribbons are panes with four edges that are more than three times as long as wide, along w or along h. House panes
have a wind class and a zone. Tempered glass is that of kinds 2, 3 and 4, whose maximum dead load is less than that of kind 1.
Where a job has only one short group, or only one that is short by all panes that are left over, and that is stated here, the
line that is due of it stands in the job's notes.
"""
import pathlib
import random
import shutil
import sys

sys.dont_write_bytecode = True
CRATE = pathlib.Path(__file__).resolve().parent.parent
for crate in "check_job", "judge_job":
    sys.path.append(str(CRATE.parent / crate / "vectors"))
import clauses
import placing
import reader

MOST = 99999
FILES = {}
LINES = []


def pane(edges=4, angle=45, awning=0, top=2500, w=200, h=200, down=0, up=0):
    """A pane that every kind and thickness serves, unless the numbers given stand against it."""
    return clauses.Pane(edges, angle, awning, top, w, h, down, up)


def house(edges=4, angle=45, awning=0, top=2500, w=200, h=200, wind=1, zone=1):
    """The same by a wind class and a zone."""
    return clauses.House(edges, angle, awning, top, w, h, wind, zone)


def glass(stock=1, kind=3, thick=10, w=2400, h=3600, two=MOST, four=MOST):
    return clauses.Glass(kind, thick, w, h, two, four, stock)


def lines(ids, entries):
    words = [(clauses.LETTERS[type(it)], id, *it) for id, it in zip(ids, entries, strict=True)]
    return "".join(" ".join(map(str, line)) + "\n" for line in words).encode()


def file_of(notes, glass_lines, pane_lines):
    notes = notes.encode()
    return notes + glass_lines + pane_lines + b"T %05d %05d\n" % (len(notes), len(notes + glass_lines))


def put(name, due, answer, file):
    """A file of which this is due, and that is read so."""
    name += ".job"
    if name in FILES:
        raise SystemExit(f"{name}: twice")
    if reader.check(file) != answer:
        raise SystemExit(f"{name}: stated {answer}, but reader.py answers {reader.check(file)}")
    FILES[name] = file
    LINES.append((name, due))


def rows_of(glasses, panes):
    return [[place for place, sheet in enumerate(glasses) if not clauses.verdict(it, sheet)] for it in panes]


def line_of(left_over):
    """What is due of a job of which so many panes are left over."""
    return f"short by {left_over}" if left_over else "full"


def hold(name, due, glasses, panes, chain=None, group=None, whole=None, under=None):
    """Compares what is stated of a job with what placing.py finds: full or short, and by how many; and, if it is stated, how many
    links the shortest chain has that gives a sheet to the first pane that first fit leaves with none; the places in the file of
    the only short group, or of the only one that is short by all panes that are left over; and how many panes would be left
    over by chains of fewer links than a number of them."""
    rack, roof = [it.stock for it in glasses], rows_of(glasses, panes)
    left_over, found = placing.shortage(rack, roof), placing.decide(rack, roof)
    if due != line_of(left_over) or due.split()[0] != found:
        raise SystemExit(f"{name}: stated {due}, but placing.py finds it {found}, and {left_over} left over")
    if chain is not None and placing.links(rack, roof) != chain:
        raise SystemExit(f"{name}: stated {chain} links, but placing.py has {placing.links(rack, roof)}")
    if group is not None and not placing.is_only_short_group(rack, roof, group):
        raise SystemExit(f"{name}: not the only short group by placing.py")
    if whole is not None and not placing.is_only_whole_group(rack, roof, whole):
        raise SystemExit(f"{name}: not the only group of the whole shortage by placing.py")
    for count, stated in (under or {}).items():
        if placing.left_by_chains(rack, roof, count - 1) != stated:
            raise SystemExit(f"{name}: under {count} links, {placing.left_by_chains(rack, roof, count - 1)} are left over")


def places_of(name, group, pane_ids):
    """The places in the file of a group with these ids, which are to rise (document 02, 2026-04)."""
    if list(group) != sorted(set(group) & set(pane_ids)):
        raise SystemExit(f"{name}: the ids of the group do not rise, or not all are of panes")
    return [place for place, id in enumerate(pane_ids) if id in group]


def job(name, due, glasses, panes, glass_ids=None, pane_ids=None, chain=None, group=None, whole=None, under=None):
    """A job of which this is due. The ids are those from 501 and from 1 on, unless others are given. `group` has the ids of the
    only short group, and `whole` of the only one that is short by all panes that are left over, if that is stated, as they are
    to be listed."""
    glass_ids = glass_ids or range(501, 501 + len(glasses))
    pane_ids = pane_ids or range(1, 1 + len(panes))
    places = [ids and places_of(name, ids, pane_ids) for ids in (group, whole)]
    hold(name, due, glasses, panes, chain, *places, under)
    listed = group or whole
    notes = f"{name}\n" + (f"short {' '.join(map(str, listed))}\n" if listed else "")
    file = file_of(notes, lines(glass_ids, glasses), lines(pane_ids, panes))
    put(name, due, f"accepted {len(glasses)} {len(panes)}", file)


def sheet(at, stock=1):
    """The sheets at 0 to 64 grow wider and less high, so that a pane can be made for any run of them. They are of 10 mm, and
    have 16 mm for its edge covers."""
    return glass(stock, w=516 + 5 * at, h=1516 - 5 * at)


def run(first, last):
    """A pane that the sheets at `first` to `last` suit, and no others."""
    return pane(w=500 + 5 * first, h=1500 - 5 * last)


def runs(name, due, stocks, intervals, order=None, **more):
    """A job of sheets at 0 on with these stocks, and panes that suit these runs of them. `order` gives the sheets of the file."""
    order = order or range(len(stocks))
    glasses, panes = [sheet(at, stocks[at]) for at in order], [run(*interval) for interval in intervals]
    meant = [[place for place, at in enumerate(order) if first <= at <= last] for first, last in intervals]
    if rows_of(glasses, panes) != meant:
        raise SystemExit(f"{name}: the panes do not suit the runs that were meant")
    left_over = placing.shortage_of_runs(stocks, intervals)
    if due != line_of(left_over):
        raise SystemExit(f"{name}: stated {due}, but by the windows of placing.py {left_over} panes are left over")
    job(name, due, glasses, panes, **more)


PAPER_RACK = [glass(1, 1, 12, 2400, 3600, 21304, 23857), glass(1, 1, 10, 2400, 3600, 17976, 20130)]


def paper_jobs():
    """Example (j), with its panes in the other order, and with one sheet less. Its pressures are those of N2 in zone 1, so all
    this is also due of house panes."""
    file = (CRATE.parent.parent / "examples" / "canopy.job").read_bytes()
    put("paper", "full", "accepted 2 2", file)
    panes = [pane(4, 30, 0, 3000, 900, 1500, 60, 95), pane(4, 10, 0, 3000, 500, 1000, 60, 95)]
    if file != file_of("", lines((9, 7), PAPER_RACK), lines((1, 2), panes)):
        raise SystemExit("paper: not the example of document 01")
    hold("paper", "full", PAPER_RACK, panes, chain=2)
    by_class = [house(*it[:6], 2, 1) for it in panes]
    job("paper-houses", "full", PAPER_RACK, by_class, (9, 7), (1, 2), chain=2)
    for name, roof in ("paper", panes), ("paper-houses", by_class):
        job(f"{name}-panes-reversed", "full", PAPER_RACK, roof[::-1], (9, 7), (2, 1))
        job(f"{name}-one-sheet", "short by 1", PAPER_RACK[:1], roof, (9,), (1, 2))


def chains():
    """Pane n suits the sheets n and n+1, and the last pane the first sheet alone: all the others move over."""
    for count in 2, 8, 64:
        intervals = [(at, at + 1) for at in range(count - 1)] + [(0, 0)]
        runs(f"chain-{count}", "full", [1] * count, intervals, chain=count)
    runs("chain-64-of-4-sheets", "full", [4] * 64, [interval for interval in intervals for _ in range(4)], chain=64)
    runs("chain-64-panes-reversed", "full", [1] * 64, intervals[::-1])
    runs("chain-64-to-and-fro", "full", [1] * 64, intervals, random.Random(7).sample(range(64), 64))
    # no sheet is left at the end of the chain
    runs("chain-64-to-nothing", "short by 1", [1] * 63 + [0], intervals)
    runs("chain-64-to-a-taken-sheet", "short by 1", [1] * 64, [(63, 63)] + intervals)
    # the chain forks at each of 32 sheets, and only the last of them may be left
    forks = [(at, min(at + 2, 31)) for at in range(31)] + [(0, 0)]
    runs("chain-with-forks", "full", [1] * 32, forks)
    runs("chain-with-forks-to-nothing", "short by 1", [1] * 31 + [0], forks)


def first_fits():
    """First fit leaves a pane with none, though the one before need only yield its sheet: by the size, the kind, the edges and
    the wind; also where the smallest sheet, or the pane that the fewest sheets suit, comes first."""
    large, small = glass(w=1500, h=1500), glass(w=1000, h=1000)
    job("yield-by-size", "full", [large, small], [pane(w=900, h=900), pane(w=1200, h=1200)], chain=2)
    job("yield-by-turning", "full", [glass(w=2016, h=816), small], [pane(w=700, h=900), pane(w=800, h=2000)], chain=2)
    job("yield-by-kind", "full", [glass(kind=3), glass(kind=4)], [pane(top=2999), pane(top=3000)], chain=2)
    job("yield-by-edges", "full", [glass(), glass(two=1)], [pane(), pane(edges=2)], chain=2)
    # 200 mm under P 542, which is 500 and a dead load of 42 for tempered glass of 10 mm, need a constant of 4657
    job("yield-by-wind", "full", [glass(four=4657), glass(four=4656)], [pane(), pane(down=500)], chain=2)
    job("yield-of-2-sheets", "full", [large._replace(stock=2), small], [pane()] * 2 + [pane(w=1200, h=1200)], chain=2)
    job("yield-the-smallest", "full", [small, large._replace(kind=4)], [pane(top=2000), pane(top=4000)], chain=2)
    runs("yield-of-equals", "full", [1, 1, 1], [(1, 2), (0, 1), (0, 1)], (1, 0, 2), chain=2)
    runs("yield-three-times", "full", [3, 3, 1, 1, 1], [(0, 1)] * 3 + [(0, 4)] * 3 + [(0, 0)] * 3, chain=3)


def shortages():
    runs("short-of-one", "short by 1", [1], [(0, 0), (0, 0)])
    runs("short-of-a-pane", "short by 1", [0], [(0, 0)])
    runs("short-of-all", "short by 4", [0, 0, 0], [(0, 2), (1, 2), (2, 2), (0, 0)])
    runs("short-twice", "short by 2", [1, 2, 0, 1, 1], [(0, 1)] * 4 + [(3, 4)] * 3)
    runs("short-between", "short by 1", [9, 1, 1, 9], [(0, 0), (1, 2), (1, 2), (3, 3), (1, 2), (0, 3)])
    runs("short-beside-plenty", "short by 1", [2, 50], [(1, 1), (0, 0), (1, 1), (0, 0), (1, 1), (0, 0)])
    # a pane that no glass passes for, beside panes that are served
    none, served = pane(top=9000, w=3000, h=3000), [pane(w=300 + n, h=300) for n in range(5)]
    job("no-glass-for-the-first", "short by 1", [glass(9)], [none, *served])
    job("no-glass-for-two", "short by 2", [glass(2), glass(0), glass(3)], [served[0], none, *served[1:4], none, served[4]])
    job("stock-of-no-use", "short by 5", [glass(0), glass(999, w=100, h=100)], served)


def clauses_alone():
    """A rack of which each clause alone keeps a pane away, by its pressures and by its wind class."""
    # over a span of 500, P 42 of the pane without wind needs a constant of 3241
    sheet = glass(9, kind=4, two=3240)
    for name, make in ("no-glass-by-each-clause", pane), ("no-glass-by-each-clause-for-houses", house):
        panes = [make(top=3000), make(w=1300, h=3585), make(edges=2, awning=1, w=301), make(edges=2, w=500), make()]
        failing = [[number for number, fails in enumerate(clauses.CLAUSES, 1) if fails(it, sheet)] for it in panes]
        if failing != [[1], [2], [3], [4], []]:
            raise SystemExit(f"{name}: fails by {failing}")
        job(name, "short by 4", [sheet], panes)


def is_ribbon(it):
    return it.edges == 4 and max(it.w, it.h) > 3 * min(it.w, it.h)


def shortened(it):
    """A ribbon shortened to 3 times its width, which is then none and reads AR=3; any other pane as it is."""
    longest = 3 * min(it.w, it.h)
    return it._replace(w=min(it.w, longest), h=min(it.h, longest)) if is_ribbon(it) else it


def short_by_ribbons(name, due, glasses, panes):
    """A job that is short by its ribbons, and full once they are shortened."""
    job(name, due, glasses, panes)
    job(f"{name}-cut", "full", glasses, [shortened(it) for it in panes])


def ribbon_yields():
    """Roofs that are full only if a pane moves over for a ribbon, or a ribbon for a pane. By the two-edge column and under
    0.5 kN, laminated annealed glass spans 250 at 10 mm and 700 at 12."""
    thick, thin = glass(kind=1, thick=12), glass(kind=1, thick=10)
    # the ribbon needs the 12 mm; the pane before it takes that by first fit, and may have the 10 mm
    job("ribbon-yield-h-longer", "full", [thick, thin], [pane(w=900, h=1500), pane(w=500, h=2000)], chain=2)
    job("ribbon-yield-w-longer", "full", [thick, thin], [pane(w=900, h=1500), pane(w=2000, h=500)], chain=2)
    # three ribbons need the three sheets of 12 mm, and three panes before them have taken those
    panes = [pane(w=900, h=1500), pane(w=1500, h=900), pane(w=900, h=900)]
    ribbons = [pane(w=500, h=2000), pane(w=2000, h=500), pane(w=700, h=2101)]
    job("ribbons-yield-3-sheets", "full", [thick._replace(stock=3), thin._replace(stock=3)], panes + ribbons, chain=2)
    # the narrow ribbon may have either, and the two-edge pane behind it needs the 12 mm
    job("ribbon-moves-over", "full", [thick, thin], [pane(w=1000, h=250), pane(2, w=700)], chain=2)
    # the first sheet covers both ribbons, and no other sheet covers the second
    large, small = glass(w=1200, h=4000), glass(w=516, h=2516)
    job("ribbon-yield-by-size", "full", [large, small], [pane(w=2500, h=500), pane(w=600, h=3900)], chain=2)
    # 200 mm under P 542 need a constant of 4657, as in yield-by-wind; by "two", both ribbons would need the second glass
    first, second = glass(two=1, four=4657), glass(four=4656)
    job("ribbon-yield-by-wind", "full", [first, second], [pane(w=200, h=1000), pane(w=1000, h=200, down=500)], chain=2)


# kind and thickness of five sheets, their two-edge span under 0.5 kN, the length of the longest ribbon that they cover and
# their own: the spans grow and the lengths fall
RIBBON_RACK = [
    (1, 10, 250, 5000, 5016), (3, 6, 650, 4500, 4512), (1, 12, 700, 4000, 4018), (2, 8, 800, 3500, 3516),
    (2, 10, 1600, 3000, 3016),
]
# a ribbon as wide as each sheet can span and as long as the next one can cover, and one as long as the first can cover
RIBBON_SIDES = [(this[2], following[3]) for this, following in zip(RIBBON_RACK, RIBBON_RACK[1:])] + [(250, 5000)]


def ribbon_chains():
    """Ribbon n is as wide as sheet n can span and as long as sheet n+1 can cover, and suits these two. The last one is as long
    as the first sheet can cover, and suits it alone: all the others move over."""
    glasses = [glass(1, kind, thick, 2000, length) for kind, thick, _, _, length in RIBBON_RACK]
    panes = [pane(w=w, h=h) if place % 2 else pane(w=h, h=w) for place, (w, h) in enumerate(RIBBON_SIDES)]
    if rows_of(glasses, panes) != [[0, 1], [1, 2], [2, 3], [3, 4], [0]]:
        raise SystemExit("ribbon-chain: the ribbons do not suit the sheets that were meant")
    job("ribbon-chain-5", "full", glasses, panes, chain=5)
    # no sheet is left at the end of the chain
    job("ribbon-chain-5-to-nothing", "short by 1", glasses[:4] + [glasses[4]._replace(stock=0)], panes)


def ribbon_columns():
    """The two-edge column keeps from ribbons what AR=3 would give them: laminated annealed glass spans 250 and not 1700 at
    10 mm, 700 and not 1900 at 12. No roof is full by the two-edge column and short by AR=3, whose spans are never below."""
    thick, thin = glass(kind=1, thick=12), glass(kind=1, thick=10)
    # ribbons of 250, and panes of 251 that are 3 times as long as wide
    panes = [pane(w=250, h=751), pane(w=751, h=250), pane(w=251, h=753), pane(w=753, h=251)]
    job("ribbons-at-the-entry", "full", [thin._replace(stock=4)], panes)
    # a ribbon of 251 may have no sheet
    short_by_ribbons("ribbon-above-the-entry-h-longer", "short by 1", [thin], [pane(w=251, h=754)])
    short_by_ribbons("ribbon-above-the-entry-w-longer", "short by 1", [thin], [pane(w=754, h=251)])
    # two ribbons of 500 need the one sheet of 12 mm
    ribbons = [pane(w=500, h=2000), pane(w=2000, h=500)]
    short_by_ribbons("ribbons-two-for-one-sheet", "short by 1", [thick, thin], ribbons)
    # three need the two sheets of 12 mm; the panes beside them have 10 and 8 mm enough
    rack = [thin._replace(stock=5), thick._replace(stock=2), glass(5, kind=1, thick=8)]
    panes = [pane(w=900, h=1500), ribbons[0], pane(w=800, h=2400), ribbons[1], pane(w=300, h=300), pane(w=700, h=2101)]
    short_by_ribbons("ribbons-short-beside-panes", "short by 1", rack, panes)
    # with a third sheet of 12 mm each of these ribbons has one
    job("ribbons-served-beside-panes", "full", [rack[0], thick._replace(stock=3), rack[2]], panes)
    # a two-edge pane reads the same column: it and two ribbons need the two sheets of 12 mm
    panes = [pane(w=700, h=2101), pane(2, w=700, h=300), pane(w=2101, h=700)]
    short_by_ribbons("ribbons-short-with-two-edges", "short by 1", rack, panes)
    # an awning: 12 mm of toughened glass spans 700 for ribbons, and 10 mm nothing
    awning = [pane(awning=1, w=700, h=2800), pane(awning=1, w=2101, h=700), pane(awning=1, w=600, h=600)]
    short_by_ribbons("ribbons-under-an-awning", "short by 1", [glass(1, thick=12), glass(9, thick=10)], awning)
    # a dash lets no ribbon pass: 8 mm of laminated annealed glass with two edges
    short_by_ribbons("ribbon-by-a-dash", "short by 2", [glass(9, kind=1, thick=8)], [pane(), pane(w=1, h=4), pane(w=4, h=1)])


def ribbon_constants():
    """Clause 4 of ribbons goes by "four"."""
    # the ribbon may have the first glass alone, and the two-edge pane the second alone
    rack, two_edges = [glass(two=1), glass(four=1)], pane(2)
    job("ribbon-by-four-h-longer", "full", rack, [pane(w=200, h=1000), two_edges])
    job("ribbon-by-four-w-longer", "full", rack, [pane(w=1000, h=200), two_edges])
    # two ribbons may have the first glass alone, however many sheets there are of the second
    job("ribbons-by-four-short", "short by 1", [glass(two=1), glass(9, four=1)], [pane(w=200, h=1000), pane(w=1000, h=200)])


def empty_parts():
    job("no-panes", "full", [glass(3), glass(0)], [])
    job("no-glasses", "short by 3", [], [pane(), pane(w=300), pane(h=300)])
    put("no-lines", "full", "accepted 0 0", b"T 00000 00000\n")
    job("one-pane", "full", [glass()], [pane()])


def largest():
    """256 panes, on one glass and on 64."""
    panes = [pane(w=200 + n, h=400) for n in range(256)]
    for stock, due in (256, "full"), (255, "short by 1"), (999, "full"), (0, "short by 256"):
        job(f"one-glass-of-{stock}", due, [glass(stock)], panes)
    glasses = [glass(4, w=2000 + n) for n in range(64)]
    job("all-suit-all", "full", glasses, panes)
    job("all-suit-all-but-one-sheet", "short by 1", glasses[:40] + [glass(3)] + glasses[41:], panes)


def full_and_short_runs(seed):
    """The stocks of a full job, those of a short one, and what else they have."""
    dice = random.Random(seed)
    given = [dice.randrange(64) for _ in range(256)]
    intervals = [(max(at - dice.randrange(3), 0), min(at + dice.randrange(3), 63)) for at in given]
    stocks, order = [given.count(at) for at in range(64)], dice.sample(range(64), 64)
    rest = dict(intervals=intervals, order=order, **random_ids(dice, 64, 256))
    # three sheets change places: their run lacks some, and others have them
    full, less = [at for at in range(64) if stocks[at] >= 3], list(stocks)
    for at in dice.sample(full, 6):
        less[at] -= 3
    for at in dice.sample(range(64), 6):
        less[at] += 3
    return stocks, less, rest


def random_runs():
    """64 glasses and 256 panes with short runs: with a sheet for each pane and none more; and short of some in places, with
    sheets enough in all. By how many, placing.py told by the flow and by windows."""
    for seed, due in (1, "short by 8"), (2, "short by 11"):
        stocks, less, rest = full_and_short_runs(seed)
        runs(f"runs-{seed}", "full", stocks, **rest)
        runs(f"runs-{seed}-short", due, less, **rest)


def random_roof(name, dice, glass_count, pane_count, most, sides, houses=False):
    """A rack with up to `most` sheets of a glass and a roof of panes with these sides, as a glazier has them, by all four
    clauses: each pane has a passing glass in stock, there are more sheets than panes, and first fit leaves a pane with none.
    Every other pane may be a house pane."""
    glasses = [
        glass(dice.randrange(most + 1), dice.randrange(1, 5), dice.choice((6, 8, 10, 12)), dice.choice((1200, 1800, 2400)),
              dice.choice((1800, 2400, 3600)), dice.randrange(12000, 30000), dice.randrange(15000, 34000))
        for _ in range(glass_count)
    ]
    panes = []
    while len(panes) < pane_count:
        it = pane(dice.choice((2, 4, 4, 4)), dice.choice((5, 15, 29, 30, 45, 60)), int(dice.random() < 0.05),
                  dice.choice((2400, 2999, 3000, 4500)), dice.choice(sides), dice.choice(sides),
                  dice.randrange(0, 150, 5), dice.randrange(0, 250, 5))
        if houses and len(panes) % 2:
            it = house(*it[:6], dice.randrange(1, 11), dice.randrange(1, 3))
        if any(glasses[place].stock for place in rows_of(glasses, [it])[0]):
            panes.append(it)
    rack = [it.stock for it in glasses]
    if sum(rack) <= pane_count or None not in placing.first_fit(rack, rows_of(glasses, panes)):
        raise SystemExit(f"{name}: too easy")
    return glasses, panes


def random_ids(dice, glass_count, pane_count):
    return dict(glass_ids=dice.sample(range(1, 10000), glass_count), pane_ids=dice.sample(range(1, 10000), pane_count))


def random_roofs():
    """Roofs with ribbons, both with w longer and with h longer. The short roofs would be full if their ribbons were shortened. By
    how many they are short, the flow told."""
    for name, due, seed, glass_count, pane_count, most in (
        ("roof-1", "full", 13, 24, 48, 4), ("roof-1-short", "short by 1", 68, 24, 48, 4),
        ("roof-2", "full", 5, 64, 256, 9), ("roof-2-short", "short by 3", 87, 64, 256, 9),
    ):
        dice = random.Random(seed)
        glasses, panes = random_roof(name, dice, glass_count, pane_count, most, range(300, 1600, 50))
        if {it.w > it.h for it in panes if is_ribbon(it)} != {False, True}:
            raise SystemExit(f"{name}: not ribbons of both ways")
        hold(f"{name}, shortened", "full", glasses, [shortened(it) for it in panes])
        job(name, due, glasses, panes, **random_ids(dice, glass_count, pane_count))


def ids():
    """Ids that are the same for panes and glasses in another order, that differ by a multiple of 256, and the highest."""
    stocks, full, short = [1, 2, 1, 1], [(0, 1), (0, 2), (2, 3), (1, 1), (2, 3)], [(0, 1)] * 4 + [(3, 3)]
    for name, glass_ids, pane_ids in (
        ("shared", (1, 2, 3, 4), (5, 4, 3, 2, 1)), ("256-apart", (1, 257, 513, 769), (2, 258, 514, 1, 257)),
        ("highest", (9999, 1, 9998, 2), (9999, 2, 9998, 1, 5000)),
    ):
        runs(f"ids-{name}", "full", stocks, full, glass_ids=glass_ids, pane_ids=pane_ids)
        runs(f"ids-{name}-short", "short by 1", stocks, short, glass_ids=glass_ids, pane_ids=pane_ids)


def refused_files():
    """A file for each cause that a file can have. Their good lines are a job that could be placed. A ribbon is no cause."""
    sheets, panes = lines((1, 2), [glass(), glass()]), lines((1, 2), [pane(), pane()])
    body, behind = sheets + panes, len(sheets)

    def trailer(file, glass_at, pane_at):
        return file + b"T %05d %05d\n" % (glass_at, pane_at)

    def behind_body(id, it):
        return trailer(body + lines((id,), [it]), 0, behind)

    ribbon, good_house = lines((3,), [pane(w=100, h=301)]), lines((3,), [house()])
    many = lines(range(1, 257), [pane()] * 256)
    for name, cause, offset, file in (
        ("cause-1", 1, 0, b"T 00000 0000\n"), ("cause-2", 2, len(body), body + b"T 00000 000xx\n"),
        ("cause-3", 3, len(body), trailer(body, behind, 0)), ("cause-4", 4, len(body), trailer(body + b"P 3\n", 0, behind)),
        ("cause-5", 5, len(body), behind_body(3, pane(angle=75))), ("cause-6", 6, len(body), behind_body(1, pane())),
        ("cause-8", 8, len(sheets + many), trailer(sheets + many + ribbon, 0, behind)),
        ("house-wind-0", 5, len(body), behind_body(3, house(wind=0))),
        ("house-wind-11", 5, len(body), behind_body(3, house(wind=11))),
        ("house-zone-3", 5, len(body), behind_body(3, house(zone=3))),
        ("house-of-pressures", 5, len(body), behind_body(3, house(wind=60, zone=95))),
        ("house-id-of-a-pane", 6, len(body), behind_body(1, house())),
        ("house-lower-case", 4, len(body), trailer(body + good_house.lower(), 0, behind)),
        ("house-among-glasses", 4, len(sheets), trailer(sheets + good_house + panes, 0, len(sheets + good_house))),
        ("house-on-line-257", 8, len(sheets + many), trailer(sheets + many + good_house, 0, behind)),
    ):
        put(name, f"refused {cause} {offset}", f"refused {cause} {offset}", file)
    # the ribbon is a third pane: two sheets do not go round, and three do
    roof = [pane(), pane(), pane(w=100, h=301)]
    hold("ribbon-as-third-pane", "short by 1", [glass(), glass()], roof)
    put("ribbon-as-third-pane", "short by 1", "accepted 2 3", trailer(body + ribbon, 0, behind))
    job("ribbon-as-third-pane-on-three-sheets", "full", [glass(), glass(2)], roof)
    # so is a house pane
    hold("house-as-third-pane", "short by 1", [glass(), glass()], [pane(), pane(), house()])
    put("house-as-third-pane", "short by 1", "accepted 2 3", trailer(body + good_house, 0, behind))
    job("house-as-third-pane-on-three-sheets", "full", [glass(), glass(2)], [pane(), pane(), house()])


# thickness and sides of sheets that just cover a pane of 600 by 900
COVERING = [(6, 612, 912), (8, 616, 916), (10, 616, 916), (12, 618, 918)]


def cover_shortages():
    """Four panes on one sheet of each thickness: short if the sheets have the sight size, or if one of them lacks a millimetre,
    and full if each has the cut size."""
    panes = [pane(w=600, h=900), pane(w=900, h=600), pane(2, w=600, h=900), pane(2, w=600, h=900, top=9000)]
    rack = [glass(thick=thick, w=w, h=h) for thick, w, h in COVERING]
    job("covers", "full", rack, panes)
    job("covers-sight-size", "short by 4", [it._replace(w=600, h=900) for it in rack], panes)
    for place, it in enumerate(rack):
        for side, less in ("w", it._replace(w=it.w - 1)), ("h", it._replace(h=it.h - 1)):
            job(f"covers-{it.thick}-{side}-lacks", "short by 1", rack[:place] + [less] + rack[place + 1:], panes)
    # a sheet of 6 mm covers the pane and does not span it; one of 12 mm spans it, and lacks a millimetre to cover it
    apart = [glass(kind=1, thick=thick, w=917, h=1417) for thick in (6, 12)]
    job("cover-or-span", "short by 1", apart, [pane(w=900, h=1400)])
    job("cover-and-span", "full", [it._replace(w=918, h=1418) for it in apart], [pane(w=900, h=1400)])


def cover_yields():
    """A sheet of 1000 by 1500 covers one pane in every thickness, one up to 10 mm and one in 6 mm alone. The full roofs can be
    placed in one way."""
    every, up_to_10, only_6 = pane(w=982, h=1482), pane(w=1484, h=984), pane(w=988, h=1488)
    thin, middle, thick = glass(thick=6, w=1000, h=1500), glass(thick=10, w=1000, h=1500), glass(thick=12, w=1000, h=1500)
    if rows_of([thin, middle, thick], [every, up_to_10, only_6]) != [[0, 1, 2], [0, 1], [0]]:
        raise SystemExit("covers: the panes do not suit the sheets that were meant")
    job("cover-not-the-first-glass", "full", [thick, thin], [only_6, every])
    job("cover-yield", "full", [thin, thick], [every, only_6], chain=2)
    job("cover-yield-twice", "full", [thin, middle, thick], [up_to_10, every, only_6], chain=3)
    # sheets enough, but one too few of 6 mm, or of 6 and 10 mm
    job("cover-yield-short", "short by 1", [thin, thick._replace(stock=2)], [every, only_6, only_6])
    job("cover-yield-twice-short", "short by 1", [thin, middle, thick._replace(stock=9)], [up_to_10, every, only_6, up_to_10])


def cover_roofs():
    """Roofs with many sides that a sheet of 1200 or 1800 just covers in one thickness or another. They are short, by so many as
    the flow told, and full once each sheet is larger by its edge covers."""
    for name, seed, glass_count, pane_count, most in ("roof-3", 63, 24, 48, 4), ("roof-4", 18, 64, 256, 9):
        dice = random.Random(seed)
        sides = (600, 900, 1182, 1184, 1188, 1782, 1784, 1788)
        glasses, panes = random_roof(name, dice, glass_count, pane_count, most, sides)
        ids = random_ids(dice, glass_count, pane_count)
        job(f"{name}-short", "short by 2", glasses, panes, **ids)
        covers = [2 * clauses.EDGE_COVER[it.thick] for it in glasses]
        larger = [it._replace(w=it.w + more, h=it.h + more) for it, more in zip(glasses, covers)]
        job(name, "full", larger, panes, **ids)


def is_house(it):
    return isinstance(it, clauses.House)


def by_pressures(it):
    """A house pane with its pressures instead, which judge_job's generator compares with figures of its own; any other pane as
    it is."""
    return pane(*it[:6], *clauses.wind(it)) if is_house(it) else it


# Four misreadings of a house pane. No class is above the last or below the first.


def other_zone(it):
    return it._replace(zone=3 - it.zone)


def class_above(it):
    return it._replace(wind=min(it.wind + 1, 10))


def class_below(it):
    return it._replace(wind=max(it.wind - 1, 1))


def numbers_as_pressures(it):
    return pane(*it)


def tell(name, due, glasses, panes, misreadings):
    """A job of which full is due would be short, and one of which short is due full, if its house panes were misread in one of
    these ways."""
    for misread in misreadings:
        misread_panes = [misread(it) if is_house(it) else it for it in panes]
        if placing.decide([it.stock for it in glasses], rows_of(glasses, misread_panes)) == due.split()[0]:
            raise SystemExit(f"{name}: does not tell of {misread.__name__}")


def houses(name, due, glasses, panes, misreadings=(), **more):
    """A job with house panes that tells of these misreadings, and the same job by pressures."""
    job(name, due, glasses, panes, **more)
    job(f"{name}-by-pressures", due, glasses, [by_pressures(it) for it in panes], **more)
    tell(name, due, glasses, panes, misreadings)


# An angle, a kind and a thickness, and classes and zones by rising P with the least constant that bears it over a span of 1000.
# At 74 degrees, 6 mm of kind 3 has a maximum of 12 and a minimum of 3: P is 3 less than the wind up in every class and zone.
BY_UP = 74, 3, 6, [
    (1, 1, 8125), (2, 1, 9592), (1, 2, 11046), (3, 1, 12084), (2, 2, 13039), (7, 1, 14595), (4, 1, 14765), (3, 2, 16341),
    (8, 1, 17833), (5, 1, 17945), (7, 2, 18304), (4, 2, 19975), (6, 1, 20881), (9, 1, 21680), (8, 2, 22339), (5, 2, 24249),
    (10, 1, 25220), (9, 2, 27130), (6, 2, 28214), (10, 2, 31544),
]
# At 0 degrees, 12 mm of kind 3 has a maximum of 71 and a minimum of 26, and P is 71 more than the wind down in these; (1, 1) has
# the P of (1, 2). By the maximum of kind 1, 114, it would be so in (2, 2), (5, 1) and (8, 1) too.
BY_DOWN = 0, 3, 12, [(1, 2, 10724), (2, 1, 11446), (3, 1, 12885), (4, 1, 14561), (7, 1, 14629)]
# At 30 degrees, 12 mm of kind 1 has a maximum of 98 and a minimum of 22, and P is 98 more than the wind down in these
BY_DOWN_ANNEALED = 30, 1, 12, [
    (1, 2, 11917), (2, 2, 12570), (3, 1, 13893), (4, 1, 15460), (7, 1, 15525), (5, 1, 17465), (8, 1, 17607),
]
LADDERS = ("up", BY_UP), ("down", BY_DOWN), ("down-annealed", BY_DOWN_ANNEALED)
NAMES = ("n1", "n2", "n3", "n4", "n5", "n6", "c1", "c2", "c3", "c4")


def rising_rack(ladder):
    """The sheet at a place bears the classes up to its own. From place to place the sheets are less long."""
    _, kind, thick, steps = ladder
    sheet = glass(kind=kind, thick=thick, w=1000 + 2 * clauses.EDGE_COVER[thick], h=2950 + 2 * clauses.EDGE_COVER[thick])
    return [sheet._replace(h=sheet.h - 100 * place, four=constant) for place, (_, _, constant) in enumerate(steps)]


def rising_house(ladder, first, last):
    """A house pane of the class and zone at `first` that the sheets from there to `last` suit, and no others."""
    angle, *_, steps = ladder
    wind, zone, _ = steps[first]
    return house(angle=angle, w=1000, h=2950 - 100 * last, wind=wind, zone=zone)


def every_class():
    """Each class and zone with the sheet that alone suits it: this roof is short as soon as one of them is taken for a stronger
    one. And each by itself with a sheet that bears a little less: this is full if it is taken for a weaker one."""
    for direction, ladder in LADDERS:
        rack, steps = rising_rack(ladder), ladder[-1]
        roof = [rising_house(ladder, place, place) for place in range(len(steps))]
        if rows_of(rack, roof) != [[place] for place in range(len(steps))]:
            raise SystemExit(f"houses-{direction}: the panes do not suit the sheets that were meant")
        houses(f"houses-{direction}", "full", rack, roof)
        places = {(wind, zone): place for place, (wind, zone, _) in enumerate(steps)}
        for place, it in enumerate(roof):
            name = f"house-{direction}-{NAMES[it.wind - 1]}-zone-{it.zone}"
            less = rack[place]._replace(four=rack[place].four - 1)
            job(name, "short by 1", [less], [it])
            tell(name, "short by 1", [less], [it], [numbers_as_pressures])
            for misread in other_zone, class_above, class_below:
                taken_for = places.get(misread(it)[6:], place)
                if taken_for < place:
                    tell(name, "short by 1", [less], [it], [misread])
                if taken_for > place:
                    misread_roof = roof[:place] + [misread(it)] + roof[place + 1:]
                    hold(f"houses, {name}, {misread.__name__}", "short by 1", rack, misread_roof)


def house_chains():
    """Pane n suits the sheets n and n+1, and the last pane the first sheet alone: all the others move over. All of them are
    house panes, or every other one."""
    for direction, ladder in LADDERS:
        rack, count = rising_rack(ladder), len(ladder[-1])
        roof = [rising_house(ladder, place, place + 1) for place in range(count - 1)] + [rising_house(ladder, 0, 0)]
        houses(f"house-chain-{direction}", "full", rack, roof, chain=count)
        mixed = [by_pressures(it) if place % 2 else it for place, it in enumerate(roof)]
        job(f"mixed-chain-{direction}", "full", rack, mixed, chain=count)
        job(f"mixed-chain-{direction}-panes-reversed", "full", rack, mixed[::-1])
        # no sheet is left at the end of the chain
        job(f"mixed-chain-{direction}-to-nothing", "short by 1", rack[:-1] + [rack[-1]._replace(stock=0)], mixed)


def house_classes():
    """Stronger winds on the rack of example (j). Over a span of 900, its 12 mm bears P 702 and its 10 mm P 500; at 30 degrees
    P is 22 and 18 less than the wind up."""
    c2, n5, c4 = [house(4, 30, 0, 3000, 900, 1500, wind, zone) for wind, zone in ((8, 2), (5, 2), (10, 1))]
    houses("house-c2-beside-n5", "full", PAPER_RACK, [c2, n5], [class_above], chain=2)
    houses("house-c4-beside-n5", "short by 1", PAPER_RACK, [c4, n5], [class_below, numbers_as_pressures])


def house_zones():
    """10 mm of kind 3 at 45 degrees has a maximum of 42 and a minimum of 15. N3 has P 137 in zone 1 and 255 in zone 2, and over
    a span of 600 needs constants of 7023 and 9582. The long pane fits on the first sheet alone."""
    rack = [glass(w=1016, h=616, four=7023), glass(w=616, h=616, four=9582)]
    away, near = dict(wind=3, zone=1), dict(wind=3, zone=2)
    houses("long-pane-away-from-edges", "full", rack, [house(w=1000, h=600, **away), house(w=600, h=600, **near)], [other_zone])
    houses("long-pane-near-edges", "short by 1", rack, [house(w=600, h=1000, **near), house(w=600, h=600, **away)], [other_zone])


def house_yields():
    """A house pane of C4 in zone 2 has P 983 in 10 mm at 45 degrees, and needs a constant of 6271 over a span of 200."""
    strong, weak, c4 = glass(four=6271), glass(four=6270), house(wind=10, zone=2)
    houses("house-yield", "full", [strong, weak], [pane(), c4], chain=2)
    houses("house-moves-over", "full", [strong, weak], [house(), pane(up=998)], chain=2)
    houses("house-yields-to-house", "full", [strong, weak], [house(), c4], chain=2)
    rack = [strong, weak._replace(stock=9)]
    houses("houses-two-for-one-sheet", "short by 1", rack, [c4, pane(), c4], [other_zone, class_below])
    # a pane with the numbers of that class has P 52, and needs a constant of 1443
    tiny, numbers = glass(four=1443), pane(down=10, up=2)
    job("class-numbers-as-pressures", "full", [tiny], [numbers])
    job("class-numbers-as-pressures-one-below", "short by 1", [tiny._replace(four=1442)], [numbers])
    job("class-numbers-by-both-letters", "full", [strong, tiny], [numbers, c4], chain=2)
    houses("class-numbers-by-both-letters-short", "short by 1", [tiny._replace(stock=2)], [numbers, c4], [numbers_as_pressures])


def house_shapes():
    """House panes as ribbons, and on sheets of their cut size."""
    thin = glass(kind=1, thick=10)
    ribbons = [house(w=250, h=751, wind=4, zone=2), house(w=751, h=250, wind=9, zone=1)]
    job("house-ribbons-at-the-entry", "full", [thin._replace(stock=2)], ribbons)
    short_by_ribbons("house-ribbon-above-the-entry", "short by 1", [thin], [house(w=754, h=251, wind=4, zone=2)])
    rack = [glass(thick=thick, w=w, h=h) for thick, w, h in COVERING]
    panes = [house(w=600, h=900), pane(w=900, h=600), house(2, w=600, h=900, wind=6, zone=2), house(w=600, h=900, wind=10)]
    job("house-covers", "full", rack, panes)
    job("house-covers-lack", "short by 1", rack[:3] + [rack[3]._replace(h=917)], panes)


def most_houses():
    """256 panes of both letters, on one glass."""
    panes = [pane(w=200 + n, h=400) if n % 2 else house(w=200 + n, h=400, wind=n % 5 * 2 + 1, zone=2) for n in range(256)]
    job("mixed-on-one-glass-of-256", "full", [glass(256)], panes)
    job("mixed-on-one-glass-of-255", "short by 1", [glass(255)], panes)


def house_roofs():
    """Roofs in which every other pane is a house pane, each with misreadings that it tells of. By how many they are short, the
    flow told."""
    for name, due, seed, glass_count, pane_count, most, misreadings in (
        ("roof-5", "full", 117, 24, 48, 4, [other_zone, class_above, class_below]),
        ("roof-5-short", "short by 1", 744, 24, 48, 4, [other_zone, class_below, numbers_as_pressures]),
        ("roof-6", "full", 10, 64, 256, 9, [other_zone, class_above, class_below]),
        ("roof-6-short", "short by 1", 74, 64, 256, 9, [other_zone, numbers_as_pressures]),
    ):
        dice = random.Random(seed)
        glasses, panes = random_roof(name, dice, glass_count, pane_count, most, range(300, 1600, 50), houses=True)
        houses(name, due, glasses, panes, misreadings, **random_ids(dice, glass_count, pane_count))


# From here on, the ids of short groups matter (document 02, 2026-04). Most of these jobs have only one short group.


def all_short(name, pane_ids, panes=None):
    """A job with one glass for all panes and one sheet too few: every smaller group has sheets enough."""
    panes = panes or [pane(w=200 + n, h=400) for n in range(len(pane_ids))]
    job(name, "short by 1", [glass(len(panes) - 1)], panes, pane_ids=pane_ids, group=sorted(pane_ids))


def broken_chain(count, each=1):
    """Stocks and runs of a chain with so many of each pane, and one sheet too few at its end. Without any one pane the others
    can move over, so every short group has all panes."""
    intervals = [(at, at + 1) for at in range(count - 1)] + [(0, 0)]
    return [each] * (count - 1) + [each - 1], [interval for interval in intervals for _ in range(each)]


def group_orders():
    """Groups of all panes whose ids have another order than their lines, or than a search that begins with the last pane."""
    all_short("group-ids-fall", (9000, 721, 300, 65, 17, 2))
    all_short("group-ids-1-and-9999", (9999, 1))
    # one round of exchanges between neighbours does not bring it to the front
    all_short("group-lowest-id-last", (20, 30, 40, 50, 60, 70, 10))
    # in order as texts, and by their low bytes
    all_short("group-ids-as-text", (1, 10, 100, 1000, 2, 23, 230, 9, 99, 999, 9999))
    all_short("group-ids-by-low-byte", (256, 512, 1, 257, 513, 255, 511, 767))
    # from the last pane, whose id is the highest, the search goes on by rising ids, or by no order
    stocks, intervals = broken_chain(8)
    rising = (3, 8, 90, 91, 400, 1234, 5678, 9876)
    runs("group-ids-rise-along-a-chain", "short by 1", stocks, intervals, pane_ids=rising, group=rising)
    shuffled = (400, 3, 5678, 90, 1234, 91, 8, 9876)
    order = (5, 2, 7, 0, 3, 6, 1, 4)
    runs("group-ids-mixed-along-a-chain", "short by 1", stocks, intervals, order, pane_ids=shuffled, group=rising)


def group_blocks():
    """Groups of all panes with ids around the borders of blocks of 64, which a set of bits may have. The first block may begin
    with 0 or with 1."""
    all_short("group-block-borders-fall", (9999, 9985, 9984, 9983, 129, 128, 127, 65, 64, 63, 1))
    all_short("group-block-borders-mixed", (64, 9999, 63, 128, 9984, 1, 127, 9985, 65, 9983, 129))
    # a whole block and the ids beside it; the last ids; an id of each of the 157 blocks, in steps of 50 blocks
    all_short("group-block-whole", range(129, 62, -1))
    all_short("group-block-last", random.Random(4).sample(range(9975, 10000), 25))
    blocks = [50 * step % 157 for step in range(157)]
    all_short("group-of-each-block", [64 * block + (23 * block + 7) % 64 for block in blocks])


def groups_of_one():
    """A pane that no glass passes for is a group by itself. The others have a sheet more than they need, and so are in none."""
    none, others, ids = pane(w=3000, h=3000), [pane(w=300 + n) for n in range(4)], [5000, 64, 9998, 2]
    for id in 1, 7, 9999:
        for where, place in ("first", 0), ("middle", 2), ("last", 4):
            panes, pane_ids = others[:place] + [none] + others[place:], ids[:place] + [id] + ids[place:]
            job(f"group-of-one-id-{id}-{where}", "short by 1", [glass(5)], panes, pane_ids=pane_ids, group=[id])


def ids_to_both_ends(dice, count):
    """So many ids in no order, the lowest and the highest among them."""
    return dice.sample([1, 9999, *dice.sample(range(2, 9999), count - 2)], count)


def groups_of_256():
    """Groups of all panes of the largest roof: 256 panes on 255 sheets, of which every smaller group has enough."""
    spread = range(54, 10000, 39)
    runs("group-of-256-ids-rise", "short by 1", *broken_chain(8, 32), pane_ids=spread, group=spread)
    all_short("group-of-256-ids-fall", spread[::-1])
    all_short("group-of-256-ids-256-to-1", range(256, 0, -1))
    # 64 glasses, and 32 panes for each eight of them and the next, if there is one: n neighbouring runs of these eight have at
    # least 32 n sheets, but all have 255
    dice = random.Random(256)
    intervals = dice.sample([(at, min(at + 8, 63)) for at in range(0, 64, 8)] * 32, 256)
    order, pane_ids = dice.sample(range(64), 64), ids_to_both_ends(dice, 256)
    runs("group-of-256-ids-shuffled", "short by 1", [3] + [4] * 63, intervals, order, pane_ids=pane_ids, group=sorted(pane_ids))
    # no job has a longer text: every id has four digits, and all panes but one have a glass
    panes, pane_ids = [pane(w=200 + n, h=400) for n in range(256)], dice.sample(range(1000, 10000), 256)
    rack = [glass(200), glass(55)]
    job("group-of-256-longest-text", "short by 1", rack, panes, (9999, 1000), pane_ids, group=sorted(pane_ids))


def groups_between():
    """Groups of some of the panes, whose ids lie between those of the others. The others have a sheet to spare among glasses
    that pass for none of the group, and so are in no short group; some would also do with sheets of the group."""
    roof = [
        (80, 2, 3), (71, 1, 2), (20, 0, 1), (11, 1, 2), (111, 1, 1), (60, 2, 3), (31, 2, 2), (120, 0, 0), (91, 1, 2), (40, 3, 3),
        (51, 1, 2), (100, 0, 1),
    ]
    ids, intervals = [id for id, *_ in roof], [interval for _, *interval in roof]
    runs("group-between", "short by 1", [4, 3, 2, 4], intervals, (2, 1, 3, 0), pane_ids=ids, group=[11, 31, 51, 71, 91, 111])
    # the ids of the group are the places of others in the file, and its places are ids of others
    ids, intervals = (7, 1, 8, 2, 3, 6, 4, 5), [(at, at) for at in (0, 1, 1, 0, 1, 1, 1, 0)]
    runs("group-ids-as-places", "short by 1", [2, 6], intervals, glass_ids=(2, 1), pane_ids=ids, group=[2, 5, 7])
    # every other one of 256 ids
    spread, dice = range(54, 10000, 39), random.Random(128)
    kinds = [(0, 1), (2, 3), (0, 0), (1, 2), (1, 1), (3, 3), (0, 1), (2, 2)]
    roof = dice.sample([(id, kinds[place % 8]) for place, id in enumerate(spread)], 256)
    ids, intervals = [id for id, _ in roof], [interval for _, interval in roof]
    runs("group-of-every-other-id", "short by 1", [60, 67, 65, 64], intervals, pane_ids=ids, group=spread[::2])


def group_letters():
    """Groups with house panes. The winds of the second are those of house_yields: the group may have the first glass alone."""
    panes = [pane(w=300 + n) if n % 3 else house(w=300 + n, wind=n + 1, zone=2) for n in range(10)]
    all_short("group-of-both-letters", (9990, 8080, 4097, 4096, 640, 639, 129, 50, 9, 8), panes)
    c4, as_strong = house(wind=10, zone=2), pane(up=998)
    roof = [
        (95, house()), (80, c4), (11, pane()), (40, as_strong), (60, house()), (20, c4), (33, pane()), (64, as_strong),
        (50, house()), (70, c4),
    ]
    rack, ids, panes = [glass(4, four=6271), glass(6, four=6270)], [id for id, _ in roof], [it for _, it in roof]
    job("group-of-strong-winds", "short by 1", rack, panes, pane_ids=ids, group=[20, 40, 64, 70, 80])


def two_groups():
    """Two roofs that are short of a sheet each, with panes of one between those of the other, and panes that have two sheets
    more than they need. A short group has all panes of one roof or of the other, and no pane besides theirs."""
    stocks = [2, 3, 5]
    roof = [(70, 0), (90, 1), (30, 2), (10, 0), (20, 1), (100, 2), (60, 1), (40, 0), (80, 2), (50, 1)]
    one, other = ({place for place, (_, at) in enumerate(roof) if at == which} for which in (0, 1))
    for group in map(set, placing.short_groups(stocks, [[at] for _, at in roof])):
        if not (group >= one or group >= other) or not group <= one | other:
            raise SystemExit(f"two-groups: {group} is short too")
    runs("two-groups", "short by 2", stocks, [(at, at) for _, at in roof], pane_ids=[id for id, _ in roof])


def largest_group():
    """64 glasses and 256 panes, of which half are the only short group: they have the sheets at 16 to 47, as all panes of
    group-of-256-ids-shuffled have theirs. The others have five more sheets for every four panes, and some of them may have
    sheets of the group."""
    dice = random.Random(9999)
    stocks = [5] * 16 + [3] + [4] * 31 + [5] * 16
    inside = [(16, 24), (24, 32), (32, 40), (40, 47)] * 32
    outside = [(0, 8), (8, 16), (47, 55), (55, 63)] * 32
    group = ids_to_both_ends(dice, 128)
    others = dice.sample(sorted(set(range(1, 10000)) - set(group)), 128)
    roof = dice.sample([*zip(inside, group, strict=True), *zip(outside, others, strict=True)], 256)
    intervals, pane_ids = [interval for interval, _ in roof], [id for _, id in roof]
    order, glass_ids = dice.sample(range(64), 64), dice.sample(range(1, 10000), 64)
    runs("group-of-half-the-largest", "short by 1", stocks, intervals, order, glass_ids=glass_ids, pane_ids=pane_ids,
         group=sorted(group))


def other_groups():
    """Roofs with falling ids that have no short group, or many: every group of three panes or more, and every group."""
    falling = (9999, 9998, 4000, 129, 128, 100, 2, 1)
    intervals = [(at, at + 1) for at in range(7)] + [(0, 0)]
    runs("ids-fall-full", "full", [1] * 8, intervals, pane_ids=falling, chain=8)
    job("ids-fall-short-of-6", "short by 6", [glass(1), glass(0), glass(1)], [pane()] * 8, pane_ids=falling)
    job("ids-fall-no-glasses", "short by 8", [], [pane()] * 8, pane_ids=falling)


# From here on, it matters that as many panes as possible are served (document 02, 2026-05), and by how many the listed group is
# short.

# a run of which none of these racks has a sheet: no glass passes for its panes
NOWHERE = (64, 64)


def short_in(name, count, stocks, intervals, short_runs, pane_ids=None, **more):
    """A job that is short by so many, with the panes of these runs as the only group that shows it all."""
    pane_ids = pane_ids or range(1, 1 + len(intervals))
    whole = sorted(id for id, interval in zip(pane_ids, intervals, strict=True) if interval in short_runs)
    runs(name, f"short by {count}", stocks, intervals, pane_ids=pane_ids, whole=whole, **more)


def in_no_order(dice, intervals, **more):
    """Panes with these runs, and their ids, in no order."""
    return dict(intervals=dice.sample(intervals, len(intervals)), pane_ids=dice.sample(range(1, 10000), len(intervals)), **more)


def loose_chain(first, count):
    """Runs of a chain from the sheet at `first` on, with 2 sheets each: two panes for each sheet and the next, and one for the
    first alone, to which the others yield by a chain of so many links. Every group has more sheets than panes."""
    return [(at, at + 1) for at in range(first, first + count - 1) for _ in range(2)] + [(first, first)]


def served_by_chains():
    """A chain serves one pane more, beside three panes for one sheet, or beside two that no glass passes for. These come before
    the chain, before the pane that needs it, or last."""
    for count, wheres in (2, ("first",)), (5, ("first", "middle", "last")), (64, ("first",)):
        chain, lost = loose_chain(0, count), [(count, count)] * 3 if count < 64 else [NOWHERE] * 2
        for where in wheres:
            before = {"first": 0, "middle": len(chain) - 1, "last": len(chain)}[where]
            intervals, stocks = chain[:before] + lost + chain[before:], [2] * count + [1] * (count < 64)
            short_in(f"most-by-chain-{count}-lost-{where}", 2, stocks, intervals, lost, under={count: 3})
    # the last of these for a search that begins with the last glass
    short_in("most-by-chain-64-from-the-last-glass", 2, stocks, intervals, lost, order=range(63, -1, -1))
    # chains of 2, 5 and 8 links, and panes for one sheet before, between and behind them
    lost, three = [(15, 15)], [loose_chain(0, 2), loose_chain(2, 5), loose_chain(7, 8)]
    intervals = lost * 2 + three[0] + lost + three[1] + lost + three[2] + lost
    short_in("most-by-three-chains", 4, [2] * 15 + [1], intervals, lost, pane_ids=range(9999, 9999 - 3 * len(intervals), -3),
             under={2: 7, 5: 6, 8: 5})
    # the last three of 256 panes need a chain of 64 links each, and one of every four has no glass
    intervals = [interval for at in range(63) for interval in (*[(at, at + 1)] * 2, NOWHERE, (at, at + 1))]
    runs("most-by-chains-of-64", "short by 64", [3] * 64, [*intervals, NOWHERE, *[(0, 0)] * 3], under={64: 67})


def served_on_short_sheets():
    """A chain serves more panes on the very sheets that are too few."""
    # two panes for the first sheet of a chain with a sheet for each other pane
    intervals = [(at, at + 1) for at in range(63)] + [(0, 0)] * 2
    runs("most-by-chain-64-on-short-sheets", "short by 1", [1] * 64, intervals, under={64: 2})
    # the roof of yield-three-times with two panes more: three of five are served, each by a chain
    intervals = [(0, 1)] * 3 + [(0, 4)] * 3 + [(0, 0)] * 5
    runs("most-yield-three-times", "short by 2", [3, 3, 1, 1, 1], intervals, under={3: 5})


def served_past_shortages():
    """Panes are left over early. Later ones are served by chains whose panes would also do with the sheets that lack."""
    # the last pane suits a sheet that lacks and a sheet whose panes can yield
    short_in("most-beside-a-shortage", 1, [1, 2, 2], [(0, 0)] * 2 + [(1, 2)] * 2 + [(0, 1)], [(0, 0)], under={2: 2})
    # the pane that yields suits the sheet that lacks before the one that is left, or behind it
    for name, order in ("ahead", (0, 1, 2)), ("behind", (0, 2, 1)):
        intervals = [(1, 1)] * 2 + [(0, 2)] * 3 + [(0, 0)]
        short_in(f"most-past-a-shortage-{name}", 1, [2, 1, 3], intervals, [(1, 1)], order=order, under={2: 2})
    # a sheet lacks at each link but the last of a chain of 5
    lost = [(at, at) for at in (1, 3, 5, 7)]
    intervals = lost * 2 + [(at, at + 2) for at in (0, 2, 4, 6) for _ in range(2)] + [(0, 0)]
    short_in("most-past-four-shortages", 4, [2, 1] * 4 + [2], intervals, lost, under={5: 5})


def places_apart():
    """Roofs that are short in places that share no glass: the group has the panes of all of them. Other panes have sheets to
    spare, and are in none."""
    dice = random.Random(25)
    # by 1 and by 2; by 3, by 1 and by 2
    two, three = [(0, 0)] * 2 + [(1, 1)] * 3 + [(2, 3)] * 4, [(0, 0)] * 4 + [(1, 1)] * 2 + [(2, 4)] * 6 + [(5, 5)] * 3
    two_short, three_short = [(0, 0), (2, 3)], [(0, 0), (1, 1), (2, 4)]
    short_in("places-two-in-turn", 3, [1, 4, 1, 1], two, two_short)
    short_in("places-two-mixed", 3, [1, 4, 1, 1], short_runs=two_short, **in_no_order(dice, two, order=(3, 1, 0, 2)))
    short_in("places-three-in-turn", 6, [1, 1, 1, 2, 1, 9], three, three_short)
    # two chains that lack a sheet at their ends: without any one pane the others of its chain are served
    stocks, chain = broken_chain(6)
    other = [(first + 6, last + 6) for first, last in chain]
    short_in("places-two-chains-in-turn", 2, stocks * 2, chain + other, chain + other)
    by_turns = [interval for both in zip(chain, other) for interval in both]
    short_in("places-two-chains-by-turns", 2, stocks * 2, by_turns, by_turns, pane_ids=range(12, 0, -1))
    # each glass with two panes for its sheet; and every other one with five for two, the rest with one for two
    singles = [(at, at) for at in range(64)]
    short_in("places-64", 64, [1] * 64, short_runs=singles, **in_no_order(dice, singles * 2))
    short_in("places-32-of-64", 96, [2] * 64, short_runs=singles[::2], **in_no_order(dice, singles + singles[::2] * 4))


def places_with_nothing():
    """One of the places is panes that no glass passes for, or a glass without sheets."""
    one, served = [(0, 0)] * 3, [(1, 1)] * 2
    for name, intervals in ("first", [NOWHERE] * 2 + one + served), ("last", served + one + [NOWHERE] * 2):
        short_in(f"places-no-glass-{name}", 3, [2, 3], intervals, [(0, 0), NOWHERE])
    short_in("places-no-sheet", 3, [2, 3, 0], [(2, 2), *one, *served, (2, 2)], [(0, 0), (2, 2)])
    # both; two panes for a sheet; three for two glasses with a sheet each; a chain that lacks a sheet; and panes that are served
    stocks, chain = broken_chain(5)
    chain = [(first + 5, last + 5) for first, last in chain]
    short_runs = [NOWHERE, (0, 0), (1, 1), (2, 3), *chain]
    roof = in_no_order(random.Random(5), [NOWHERE, (0, 0), (1, 1), (2, 3), (4, 4)] * 2 + [(2, 3), *chain])
    short_in("places-of-each-kind", 7, [0, 1, 1, 1, 9, *stocks], short_runs=short_runs, **roof)


def joined_shortages():
    """Two shortages that meet."""
    # both may have the glass between them, and it counts once: short by 1 each, and by 3 together
    both = [(0, 1), (1, 2)]
    short_in("joined-by-a-glass", 3, [1, 1, 1], both * 3, both)
    # that glass has sheets to spare, and the panes that do with it are served
    ends = [(0, 0), (2, 2)]
    short_in("joined-by-a-glass-to-spare", 2, [1, 5, 1], [*both, *ends, *both, *ends], ends)
    # a pane may have the glasses of both, and is left over too
    short_in("joined-by-a-pane", 3, [1, 0, 1], [*ends, (0, 2), *ends], [*ends, (0, 2)])
    # a pane is left over early, and later ones seek through its glass in vain: each sheet has one pane too many
    intervals = [(0, 0)] * 2 + [interval for at in range(1, 5) for interval in ((at, at), (at - 1, at))]
    short_in("joined-by-searches", 5, [1] * 5, intervals, intervals)
    # the same from the other end: each search reaches one glass more than the last
    short_in("joined-by-searches-turned-round", 5, [1] * 5, intervals[::-1], intervals, pane_ids=range(40, 30, -1))


def groups_with_more_beside():
    """Panes with sheets to spare are not in the group: with them, it would be short by less, or not at all."""
    short_in("beside-a-sheet-to-spare", 4, [1, 3], [(0, 0), (1, 1), (0, 0), (0, 0), (1, 1), (0, 0), (0, 0)], [(0, 0)])
    # 999 sheets of glasses that one pane or none can use
    short_in("beside-999-sheets", 3, [999, 2, 999], [(0, 0), *[(1, 1)] * 5], [(1, 1)], order=(2, 0, 1))
    # glasses of the group would also do for panes that are not in it
    inside, beside = [(1, 2)] * 4 + [(1, 1), (2, 2)], [(0, 1), (0, 1), (2, 3), (2, 3), (0, 3), (3, 3)]
    by_turns = [interval for both in zip(inside, beside) for interval in both]
    ids = (60, 7, 58, 9, 42, 11, 40, 80, 38, 82, 36, 84)
    short_in("inside-and-beside", 2, [3, 2, 2, 4], by_turns, inside, pane_ids=ids, order=(1, 3, 0, 2))


def short_by_most():
    """The largest roofs, short by nearly all panes and in several places."""
    panes, falling = [pane(w=200 + n, h=400) for n in range(256)], range(9999, 9743, -1)
    job("one-sheet-for-256", "short by 255", [glass(1)], panes, pane_ids=falling, whole=falling[::-1])
    job("64-sheets-for-256", "short by 192", [glass(w=2000 + n) for n in range(64)], panes, whole=range(1, 257))
    dice, singles = random.Random(192), [(at, at) for at in range(64)]
    short_in("64-sheets-for-four-each", 192, [1] * 64, short_runs=singles, **in_no_order(dice, singles * 4))
    # eight glasses with 4 sheets each for 33 panes or more, and the next eight for 29 or 30, four times over. Of the 29 or 30,
    # six may have the first two glasses alone and one the first and the last of those before, which first fit gives to others
    intervals, short_runs = [], [(first, first + 7) for first in (0, 16, 32, 48)]
    for first, short, served in (0, 33, 29), (16, 34, 29), (32, 35, 30), (48, 36, 30):
        beside = [(first + 8, first + 15)] * (served - 7) + [(first + 7, first + 8)] + [(first + 8, first + 9)] * 6
        intervals += [(first, first + 7)] * short + beside
    short_in("largest-in-turn", 10, [4] * 64, intervals, short_runs, under={2: 38})
    roof = in_no_order(dice, intervals, order=dice.sample(range(64), 64))
    short_in("largest-mixed", 10, [4] * 64, short_runs=short_runs, **roof)


def number_by_clauses():
    """By how many a roof is short depends on its ribbons, its house panes or its edge covers. It is also short if they are
    misread, by another number."""
    # four ribbons need the sheet of 12 mm, and two other panes have three of 10 mm; shortened, all six may have any of the four
    rack = [glass(3, kind=1, thick=10), glass(kind=1, thick=12)]
    ribbons = [pane(w=500, h=2000), pane(w=2000, h=500), pane(w=700, h=2101), pane(w=2400, h=600)]
    panes = [ribbons[0], pane(w=900, h=1500), *ribbons[1:3], pane(w=300, h=300), ribbons[3]]
    job("number-by-ribbons", "short by 3", rack, panes, pane_ids=(6, 5, 4, 3, 2, 1), whole=[1, 3, 4, 6])
    hold("number-by-ribbons, shortened", "short by 2", rack, [shortened(it) for it in panes])
    # three panes of C4 in zone 2 need the one sheet that bears them, as in house_yields, and two others have three; in a weaker
    # wind all five may have any of the four
    rack, c4 = [glass(3, four=6270), glass(four=6271)], house(wind=10, zone=2)
    panes = [house(), c4, c4, pane(), c4]
    for name, roof in ("number-by-wind", panes), ("number-by-wind-by-pressures", [by_pressures(it) for it in panes]):
        job(name, "short by 2", rack, roof, pane_ids=(20, 400, 9, 50, 31), whole=[9, 31, 400])
    for misread in other_zone, class_below, numbers_as_pressures:
        hold(f"number-by-wind, {misread.__name__}", "short by 1", rack, [misread(it) if is_house(it) else it for it in panes])
    # five panes of 600 by 900 may have the sheet of 6 mm, and none of two that lack a millimetre of the cut size
    rack = [glass(thick=6, w=612, h=912), glass(2, thick=12, w=617, h=918)]
    panes = [pane(w=600, h=900), pane(w=900, h=600), pane(2, w=600, h=900), house(w=600, h=900), house(w=900, h=600)]
    job("number-by-covers", "short by 4", rack, panes, whole=range(1, 6))
    hold("number-by-covers, by a millimetre more", "short by 2", [rack[0], rack[1]._replace(w=618)], panes)


def random_shortages():
    """A roof with house panes, and runs that are short in four places. By how many, placing.py told."""
    dice = random.Random(309)
    glasses, panes = random_roof("roof-7-short", dice, 64, 256, 9, range(300, 1600, 50), houses=True)
    eased("roof-7-short", "short by 8", "short by 10", glasses, panes, **random_ids(dice, 64, 256))
    _, less, rest = full_and_short_runs(29)
    runs("runs-3-short", "short by 8", less, **rest)


# From here on, it matters that the maximum dead load of tempered glass is less than that of kind 1 (document 02, 2026-06).


def eased(name, due, by_kind_1, glasses, panes, **more):
    """A job, and what would be due of it if the maximum of kind 1 were that of every kind."""
    job(name, due, glasses, panes, **more)
    roof = [[place for place in row if not clauses.uniform_load_fails(it, glasses[place]._replace(kind=1))]
            for it, row in zip(panes, rows_of(glasses, panes), strict=True)]
    found = line_of(placing.shortage([it.stock for it in glasses], roof))
    if found != by_kind_1:
        raise SystemExit(f"{name}: by the maximum of kind 1 stated {by_kind_1}, but placing.py finds {found}")


def eased_kinds():
    """The 12 mm of document 02, at 0 degrees: 114 with kind 1 and 71 with the others. Under 60 more, a span of 800 needs
    constants of 10553 and 9157."""
    it = pane(angle=0, w=800, h=1500, down=60, up=95)
    sheets = {kind: glass(kind=kind, thick=12, four=10552) for kind in (1, 2, 3, 4)}
    for kind in 2, 3, 4:
        eased(f"eased-kind-{kind}", "full", "short by 1", [sheets[kind]], [it])
        least = sheets[kind]._replace(four=9157)
        eased(f"eased-kind-{kind}-least", "full", "short by 1", [least], [it])
        eased(f"eased-kind-{kind}-one-below", "short by 1", "short by 1", [least._replace(four=9156)], [it])
    eased("not-eased-kind-1", "short by 1", "short by 1", [sheets[1]], [it])
    eased("not-eased-kind-1-least", "full", "full", [sheets[1]._replace(four=10553)], [it])
    # N2 in zone 1 has these pressures
    n2 = house(angle=0, w=800, h=1500, wind=2, zone=1)
    eased("eased-house", "full", "short by 1", [sheets[4]], [n2])
    eased("not-eased-house", "short by 1", "short by 1", [sheets[1]], [n2])
    eased("eased-all-but-kind-1", "short by 1", "short by 4", list(sheets.values()), [it, n2, n2, it], whole=range(1, 5))
    # by the wind up, 300 less 26, nothing is eased: a span of 800 needs a constant of 13243
    eased("not-eased-by-up", "short by 1", "short by 1", [sheets[3]._replace(four=13242)], [it._replace(up=300)])


def eased_shapes():
    """Two edges and ribbons. At 30 degrees 12 mm has 98 with kind 1 and 61 with the others, at 45 degrees 10 mm has 67 and 42:
    a span of 700 needs constants of 6930 and 5468, one of 250 needs 2047 and 1621."""
    for name, it, thick, least in (
        ("two-edges", pane(2, 30, w=700, h=900), 12, 6930), ("ribbons", pane(w=250, h=1000), 10, 2047),
    ):
        constants = dict(two=least - 1) if it.edges == 2 else dict(four=least - 1)
        rack = [glass(9 if kind == 1 else 1, kind, thick, **constants) for kind in (1, 2, 3, 4)]
        eased(f"eased-{name}", "short by 1", "short by 4", rack, [it] * 4, whole=range(1, 5))


def eased_numbers():
    """On the sheets of eased_kinds, panes are served by chains that the maximum of kind 1 would bar, and more of them."""
    it = pane(angle=0, w=800, h=1500, down=60, up=95)
    annealed, tempered = glass(kind=1, thick=12), glass(kind=4, thick=12, four=10552)
    # the second pane may not have monolithic glass, and the first moves over to it
    eased("eased-yield", "full", "short by 1", [annealed, tempered], [it, it._replace(top=3000)], chain=2)
    eased("eased-number", "short by 2", "short by 4", [annealed, tempered._replace(stock=2)], [it] * 5, whole=range(1, 6))


def eased_roofs():
    """Roofs with house panes. By how many they are short, also by the maximum of kind 1, the flow told."""
    for name, due, by_kind_1, seed, glass_count, pane_count, most in (
        ("eased-roof-1", "full", "short by 1", 216, 24, 48, 4),
        ("eased-roof-1-short", "short by 2", "short by 3", 249, 24, 48, 4),
        ("eased-roof-2", "full", "short by 1", 213, 64, 256, 9),
        ("eased-roof-2-short", "short by 5", "short by 9", 206, 64, 256, 9),
    ):
        dice = random.Random(seed)
        glasses, panes = random_roof(name, dice, glass_count, pane_count, most, range(300, 1600, 50), houses=True)
        eased(name, due, by_kind_1, glasses, panes, **random_ids(dice, glass_count, pane_count))


# From here on, several requests of document 02 meet, on roofs with ribbons of both letters.


def as_two_edges(it):
    """A ribbon as a pane with two edges: its span is then w, and its constant "two". Any other pane as it is."""
    return it._replace(edges=2) if is_ribbon(it) else it


def of_both_letters(panes):
    """These panes, with ribbons of both letters among them."""
    if {is_house(it) for it in panes if is_ribbon(it)} != {False, True}:
        raise SystemExit(f"not ribbons of both letters: {panes}")
    return panes


def mixed_groups():
    """Ribbons and panes of C4 in zone 2 need the sheets of 12 mm: the 10 mm spans 250 of a ribbon, and just does not bear that
    wind, as in house_yields. Two other panes have the 10 mm to spare, and take 12 mm by first fit."""
    c4 = house(wind=10, zone=2)
    roof = [
        (310, pane(w=600, h=900)), (205, pane(w=500, h=2000)), (44, house(w=500, h=900)), (9, c4),
        (87, house(w=2101, h=700, wind=4, zone=2)), (150, house(w=300, h=1200, wind=8, zone=1)), (12, c4),
    ]
    ids, panes = [id for id, _ in roof], of_both_letters([it for _, it in roof])
    thick, thin, group = glass(4, kind=1, thick=12), glass(9, kind=1, thick=10, four=6270), [9, 12, 87, 150, 205]
    job("mixed-ribbons-full", "full", [thick._replace(stock=5), thin], panes, pane_ids=ids, chain=2)
    job("mixed-ribbons-short", "short by 1", [thick, thin], panes, pane_ids=ids, group=group, under={2: 3})
    tell("mixed-ribbons-short", "short by 1", [thick, thin], panes, [other_zone, class_below, numbers_as_pressures])
    hold("mixed-ribbons-short, shortened", "full", [thick, thin], [shortened(it) for it in panes])
    rack = [thick._replace(stock=2), thin]
    job("mixed-ribbons-short-by-3", "short by 3", rack, panes, pane_ids=ids, whole=group, under={2: 4})
    hold("mixed-ribbons-short-by-3, shortened", "short by 1", rack, [shortened(it) for it in panes])


def mixed_places():
    """A roof that is short in two places: of 12 mm for three ribbons, and of 10 mm for three panes of C4 in zone 2, whose P of
    980 the 12 mm does not bear. Two other panes have 8 mm to spare, and take a sheet of either by first fit."""
    c4 = house(wind=10, zone=2)
    roof = [
        (70, pane(w=300, h=300)), (31, pane(w=500, h=2000)), (60, house(w=300, h=300)), (8, c4), (52, pane(w=2000, h=500)),
        (20, c4), (9, house(w=500, h=1600)), (41, c4),
    ]
    ids, panes = [id for id, _ in roof], of_both_letters([it for _, it in roof])
    rack = [glass(kind=1, thick=12, four=6000), glass(2, kind=1, thick=10, four=6271), glass(9, kind=1, thick=8, four=6000)]
    job("mixed-ribbons-places-two", "short by 3", rack, panes, pane_ids=ids, whole=[8, 9, 20, 31, 41, 52], under={2: 5})


def mixed_ribbon_chains():
    """The sheets of ribbon_chains, two of each, with a ribbon of each letter for a sheet and the next, and with one that comes
    last and suits the first sheet alone. No glass spans two more."""
    glasses = [glass(2, kind, thick, 2000, length) for kind, thick, _, _, length in RIBBON_RACK]
    chain = [it for w, h in RIBBON_SIDES[:-1] for it in (pane(w=w, h=h), house(w=h, h=w, wind=10, zone=2))]
    panes = of_both_letters([pane(w=1601, h=5000), *chain, house(w=5000, h=1601), house(w=250, h=5000, wind=6, zone=1)])
    if rows_of(glasses, panes) != [[], [0, 1], [0, 1], [1, 2], [1, 2], [2, 3], [2, 3], [3, 4], [3, 4], [], [0]]:
        raise SystemExit("mixed-ribbons-most-by-chain: the ribbons do not suit the sheets that were meant")
    job("mixed-ribbons-most-by-chain", "short by 2", glasses, panes, pane_ids=range(110, 0, -10), whole=[20, 110], under={5: 3})


def mixed_by_four():
    """Over 700 under P 124, in 12 mm of kind 1 with N1 in zone 2, a ribbon needs a constant of 7795. With two edges, one ribbon
    would be too wide for the sheet, and the constant for two would not do for any."""
    panes = of_both_letters([
        pane(w=800, h=1500), house(w=500, h=2000, wind=2, zone=1), pane(w=2000, h=500, down=60, up=95),
        house(w=2101, h=700, wind=1, zone=2), house(w=900, h=900),
    ])
    sheet, thin = glass(3, kind=1, thick=12, two=1, four=7795), glass(2, kind=1, thick=10)
    job("mixed-ribbons-by-four", "full", [sheet, thin], panes, chain=2)
    hold("mixed-ribbons-by-four, with two edges", "short by 3", [sheet, thin], [as_two_edges(it) for it in panes])
    job("mixed-ribbons-by-four-one-below", "short by 1", [sheet._replace(four=7794), thin], panes, whole=[4])


# thickness and sides of sheets that just cover a ribbon of 300 by 1500
RIBBON_COVERING = [(6, 312, 1512), (8, 316, 1516), (10, 316, 1516), (12, 318, 1518)]


def by_sight_size(name, due, glasses, panes):
    """What would be due of a job if a sheet needed to cover no more than the sight size."""
    covers = [2 * clauses.EDGE_COVER[it.thick] for it in glasses]
    larger = [it._replace(w=it.w + more, h=it.h + more) for it, more in zip(glasses, covers)]
    hold(f"{name}, by sight size", due, larger, panes)


def mixed_covers():
    """Panes of both letters on one sheet of each thickness, of their cut size and a millimetre less long or less wide. The sight
    size is less by more."""
    panes = of_both_letters([
        pane(w=300, h=1500), house(w=1500, h=300, wind=4, zone=2), house(2, w=300, h=1500), house(w=300, h=1500, wind=10),
    ])
    rack = [glass(thick=thick, w=w, h=h) for thick, w, h in RIBBON_COVERING]
    less = {side: [it._replace(**{side: getattr(it, side) - 1}) for it in rack] for side in ("w", "h")}
    job("mixed-covers", "full", rack, panes)
    for side, lacking in less.items():
        job(f"mixed-covers-{side}-lacks", "short by 4", lacking, panes, whole=range(1, 5))
        by_sight_size(f"mixed-covers-{side}-lacks", "full", lacking, panes)
    # two of the sheets lack a millimetre
    rack, ids = [rack[0], less["w"][1], rack[2], less["h"][3]], (50, 9, 700, 33)
    job("mixed-covers-two-lack", "short by 2", rack, panes, pane_ids=ids, whole=sorted(ids))
    by_sight_size("mixed-covers-two-lack", "full", rack, panes)


def mixed_cover_yields():
    """The roofs of cover_yields with ribbons, which sheets of 400 by 2000 cover in every thickness, up to 10 mm and in 6 mm."""
    every, up_to_10 = house(w=1982, h=382, wind=5, zone=2), pane(w=384, h=1984)
    panes = of_both_letters([up_to_10, every, house(w=388, h=1988, wind=9, zone=1)])
    rack = [glass(thick=thick, w=400, h=2000) for thick in (6, 10, 12)]
    if rows_of(rack, panes) != [[0, 1], [0, 1, 2], [0]]:
        raise SystemExit("mixed-cover-yield-twice: the ribbons do not suit the sheets that were meant")
    job("mixed-cover-yield-twice", "full", rack, panes, chain=3)
    # sheets enough, but one too few of 6 and 10 mm
    rack, panes, ids = [*rack[:2], rack[2]._replace(stock=9)], [*panes, up_to_10], (40, 3, 21, 9)
    job("mixed-cover-yield-twice-short", "short by 1", rack, panes, pane_ids=ids, group=[9, 21, 40])
    by_sight_size("mixed-cover-yield-twice-short", "full", rack, panes)


def eased_mixed():
    """Ribbons of both letters that tempered sheets serve, and would not by the maximum of kind 1."""
    # at 45 degrees, 10 mm has 67 with kind 1 and 42 with the others, and N2 in zone 1 has P 60 more: a ribbon of 250 needs
    # constants of 2818 and 2525. The second may not have monolithic glass, and the first moves over to it
    panes = of_both_letters([pane(w=250, h=1000, top=2999, down=60, up=95), house(w=1000, h=250, top=3000, wind=2, zone=1)])
    for name, due, four, more in (
        ("", "full", 2817, dict(chain=2)), ("-least", "full", 2525, dict(chain=2)),
        ("-one-below", "short by 1", 2524, dict(group=[1, 2])),
    ):
        rack = [glass(kind=1, thick=10), glass(kind=4, thick=10, four=four)]
        eased(f"eased-mixed-yield{name}", due, "short by 1", rack, panes, **more)
    # 12 mm has 80 and 50, and a minimum of 18. C1 in zone 1 has P 198 by the wind up, where kind 1 has 223 by the wind down: a
    # ribbon of 700 needs constants of 9850 and 10454
    c1, as_c1 = house(w=700, h=2800, wind=7, zone=1), pane(w=2800, h=700, down=143, up=216)
    panes = of_both_letters([c1, as_c1, c1._replace(w=2800, h=700)])
    for name, due, four in ("", "full", 10453), ("-least", "full", 9850), ("-one-below", "short by 3", 9849):
        rack = [glass(kind=kind, thick=12, four=four) for kind in (2, 3, 4)]
        eased(f"eased-mixed-by-up{name}", due, "short by 3", rack, panes)
    # sheets of kind 1 serve none of them, and there are two of the others
    rack, ids = [glass(9 if kind == 1 else 1, kind, 12, four=10453) for kind in (1, 2, 3)], (61, 7, 5000, 62)
    eased("eased-mixed-short", "short by 2", "short by 4", rack, [*panes, as_c1], pane_ids=ids, whole=sorted(ids))


# Six misreadings of a pane, and which panes they are of
MISREADINGS = [
    (shortened, is_ribbon), (as_two_edges, is_ribbon), (other_zone, is_house), (class_below, is_house), (class_above, is_house),
    (numbers_as_pressures, is_house),
]


def mixed_roofs():
    """Roofs with ribbons of both letters and with sides that a sheet just covers in one thickness or another: by how many they
    are short, and would be by first fit, by the maximum of kind 1, by sight size and by each of these misreadings. All but the
    number of first fit the flow told."""
    sides = (300, 350, 400, 500, 600, 900, 1182, 1184, 1188, 1782, 1784, 1788)
    for name, seed, left_over, first_fit, *others in (
        ("mixed-roof", 113, 0, 6, 1, 0, 0, 6, 1, 1, 1, 0), ("mixed-roof-short", 3494, 5, 7, 6, 4, 2, 6, 6, 4, 6, 4),
    ):
        dice, (by_kind_1, sight, *misread) = random.Random(seed), map(line_of, others)
        glasses, panes = random_roof(name, dice, 24, 48, 4, sides, houses=True)
        ids = random_ids(dice, 24, 48)
        eased(name, line_of(left_over), by_kind_1, glasses, of_both_letters(panes), under={2: first_fit}, **ids)
        by_sight_size(name, sight, glasses, panes)
        for (misreading, is_of), due in zip(MISREADINGS, misread, strict=True):
            roof = [misreading(it) if is_of(it) else it for it in panes]
            hold(f"{name}, {misreading.__name__}", due, glasses, roof)


def write():
    shutil.rmtree(CRATE / "data", ignore_errors=True)
    (CRATE / "data").mkdir()
    for name, file in FILES.items():
        (CRATE / "data" / name).write_bytes(file)
    said = [*LINES, ("no-such-file.job", "not opened"), ("", "not opened"), (".", "not read")]
    (CRATE / "args").write_text("".join(f"{name}\n" for name, _ in said))
    (CRATE / "stdout").write_text("".join(f"{name}: {due}\n" for name, due in said) + f"{len(FILES)} jobs, 0 wrong\n")
    counts = [f"{sum(due.startswith(word) for _, due in LINES)} {word}" for word in ("full", "short", "refused")]
    print(f"{len(FILES)} files of {sum(map(len, FILES.values()))} bytes:", ", ".join(counts))


for group in (
    paper_jobs, chains, first_fits, shortages, clauses_alone, empty_parts, largest, random_runs, random_roofs, ids, refused_files,
    ribbon_yields, ribbon_chains, ribbon_columns, ribbon_constants, cover_shortages, cover_yields, cover_roofs, every_class,
    house_chains, house_classes, house_zones, house_yields, house_shapes, most_houses, house_roofs, group_orders, group_blocks,
    groups_of_one, groups_of_256, groups_between, group_letters, two_groups, largest_group, other_groups, served_by_chains,
    served_on_short_sheets, served_past_shortages, places_apart, places_with_nothing, joined_shortages, groups_with_more_beside,
    short_by_most, number_by_clauses, random_shortages, eased_kinds, eased_shapes, eased_numbers, eased_roofs,
    mixed_groups, mixed_places, mixed_ribbon_chains, mixed_by_four, mixed_covers, mixed_cover_yields, eased_mixed, mixed_roofs,
):
    group()
write()
