"""A second placing, written from document 01, "The placing", and document 02, 2026-05, alone: whether a full placing exists, and
how many panes are left over when as many as possible are served, with what shows it. The one is found by chains of moves, the
other by a maximum flow, and neither uses the other.

A rack is a list of stocks, and a roof a list of rows: for each pane the places of the glasses that pass for it. A group is a
list of places of panes. Its shortage is how many more panes it has than there are sheets for them.
"""
import itertools

SOURCE, SINK = "source", "sink"


def first_fit(rack, roof):
    """For each pane in turn the first passing glass with a sheet left, or None."""
    left, given = list(rack), []
    for row in roof:
        given.append(next((glass for glass in row if left[glass]), None))
        if given[-1] is not None:
            left[given[-1]] -= 1
    return given


def shortest_chain(rack, roof, given, pane):
    """The glasses that a pane and the panes that move over take, by the fewest moves, as (pane, glass) pairs; [] where there is
    none. The second result is the glasses that were reached."""
    ways, waiting = {}, [(pane, [])]
    for moving, chain in waiting:
        for glass in roof[moving]:
            if glass not in ways:
                ways[glass] = chain + [(moving, glass)]
                holders = [other for other, held in enumerate(given) if held == glass]
                if len(holders) < rack[glass]:
                    return ways[glass], set(ways)
                waiting += [(holder, ways[glass]) for holder in holders]
    return [], set(ways)


def is_full_placing(rack, roof, given):
    return (all(glass in row for glass, row in zip(given, roof, strict=True))
            and all(given.count(glass) <= stock for glass, stock in enumerate(rack)))


def shown(rack, roof, group):
    """The shortage of a group. Each glass counts once."""
    return len(group) - sum(rack[glass] for glass in set().union(*(roof[pane] for pane in group)))


def is_short_group(rack, roof, group):
    return len(set(group)) == len(group) and shown(rack, roof, group) > 0


def decide(rack, roof):
    """"full" where a full placing exists, "short" where a short group does. The one or the other was found and is looked at
    again, so the search itself need not be trusted."""
    given = [None] * len(roof)
    for pane in range(len(roof)):
        chain, reached = shortest_chain(rack, roof, given, pane)
        for moving, glass in chain:
            given[moving] = glass
        if not chain:
            group = [pane] + [other for other, held in enumerate(given) if held in reached]
            if not is_short_group(rack, roof, group):
                raise SystemExit(f"not a short group: {group}")
            return "short"
    if not is_full_placing(rack, roof, given):
        raise SystemExit(f"not a full placing: {given}")
    return "full"


def links(rack, roof):
    """The length of the shortest chain for the first pane that first fit leaves with none."""
    given = first_fit(rack, roof)
    return len(shortest_chain(rack, roof, given, given.index(None))[0])


def left_by_chains(rack, roof, most):
    """How many panes have none if each in turn is given a glass by a chain of at most so many links. One link is first fit."""
    given = [None] * len(roof)
    for pane in range(len(roof)):
        chain, _ = shortest_chain(rack, roof, given, pane)
        if len(chain) <= most:
            for moving, glass in chain:
                given[moving] = glass
    return given.count(None)


def network(rack, roof):
    """The room of each edge, by its two ends: 1 from the source to each pane, 1 from a pane to each glass that passes for it, and
    the stock from a glass to the sink. The way back along each has none yet."""
    edges = [(("glass", glass), SINK, stock) for glass, stock in enumerate(rack)]
    for pane, row in enumerate(roof):
        edges += [(SOURCE, ("pane", pane), 1)] + [(("pane", pane), ("glass", glass), 1) for glass in row]
    room = {SOURCE: {}, SINK: {}} | {start: {} for start, _, _ in edges} | {end: {} for _, end, _ in edges}
    for start, end, most in edges:
        room[start][end], room[end][start] = most, 0
    return room


def distances(room):
    """Of each point that edges with room lead to from the source, over how many."""
    far, waiting = {SOURCE: 0}, [SOURCE]
    for point in waiting:
        for end, left in room[point].items():
            if left and end not in far:
                far[end] = far[point] + 1
                waiting.append(end)
    return far


def send(room, ahead, point, most):
    """Sends up to `most` from a point to the sink, always on to a point ahead, and says how much arrived. A point that takes no
    more is struck from those ahead."""
    if point == SINK:
        return most
    sent = 0
    while sent < most and ahead[point]:
        end = ahead[point][-1]
        arrived = send(room, ahead, end, min(most - sent, room[point][end]))
        room[point][end] -= arrived
        room[end][point] += arrived
        sent += arrived
        if sent < most:
            ahead[point].pop()
    return sent


def greatest_flow(rack, roof):
    """Dinic's: while the sink is reached, as much is sent as fits by shortest ways. Gives how much was sent, the room that is
    left, and the points that are then reached, which lie on the source's side of a minimum cut."""
    room, flow = network(rack, roof), 0
    while SINK in (far := distances(room)):
        ahead = {point: [end for end, left in room[point].items() if left and far.get(end) == far[point] + 1] for point in far}
        flow += send(room, ahead, SOURCE, len(roof))
    return flow, room, set(far)


def is_placing(rack, roof, given):
    """Whether each pane has a glass that passes for it or None, and no glass is given more often than its stock."""
    return (all(glass is None or glass in row for glass, row in zip(given, roof, strict=True))
            and all(given.count(glass) <= stock for glass, stock in enumerate(rack)))


def shortage(rack, roof):
    """How many panes are left over when as many as possible are served. A placing that leaves so many, and a group that is short
    by so many, with all panes that are left over, are read off the flow and looked at again, so it need not be trusted: the
    placing shows that no more are left over, and the group that no fewer can be."""
    flow, room, reached = greatest_flow(rack, roof)
    given = [next((glass for glass in row if not room["pane", pane]["glass", glass]), None) for pane, row in enumerate(roof)]
    group = [pane for pane in range(len(roof)) if ("pane", pane) in reached]
    left_over = [pane for pane, glass in enumerate(given) if glass is None]
    if not is_placing(rack, roof, given) or len(left_over) != len(roof) - flow:
        raise SystemExit(f"not a placing of {flow} panes: {given}")
    if not set(left_over) <= set(group) or shown(rack, roof, group) != len(left_over):
        raise SystemExit(f"not a group that is short by {len(left_over)}: {group}")
    return len(left_over)


def shortage_of_runs(stocks, runs):
    """The same, by another way, where the sheets lie in a line and each pane suits a run of them: the greatest sum over windows
    apart from one another of the panes with a run in the window less its sheets. A group's glasses are such windows. Places
    behind the last sheet have none."""
    def window(start, last):
        return sum(start <= first and end <= last for first, end in runs) - sum(stocks[start:last + 1])

    most = [0]
    for last in range(max(end for _, end in runs) + 1):
        most.append(max(most[-1], *(most[start] + window(start, last) for start in range(last + 1))))
    return most[-1]


def groups(roof):
    """Every group of panes."""
    counts = range(1, len(roof) + 1)
    return itertools.chain.from_iterable(itertools.combinations(range(len(roof)), count) for count in counts)


def short_groups(rack, roof):
    """Every short group there is, found by trying all groups."""
    return [list(group) for group in groups(roof) if is_short_group(rack, roof, group)]


def is_only_short_group(rack, roof, group):
    """Whether this is a short group, and there is no other. If the roof is full without a pane, every short group has that pane;
    so the roof is tried without each pane of the group. If it is full with a second pane like some other in place of the
    group's first, no short group has that other one: it would have the first too, and stay short by the exchange, which brings
    in no glass. Panes with equal rows are tried once. Where there are few panes, all groups are tried as well."""
    rest = roof[:group[0]] + roof[group[0] + 1:]
    in_group = {tuple(roof[pane]): pane for pane in group}
    others = {tuple(row) for pane, row in enumerate(roof) if pane not in group}
    return (is_short_group(rack, roof, group)
            and all(decide(rack, roof[:pane] + roof[pane + 1:]) == "full" for pane in in_group.values())
            and all(decide(rack, rest + [row]) == "full" for row in others)
            and (len(roof) > 12 or short_groups(rack, roof) == [group]))


def is_only_whole_group(rack, roof, group):
    """Whether this group is short by all panes that are left over, and no other group is. If fewer are left over without a pane,
    every such group has that pane. If with a second pane like some other no more are left over, no such group has that other
    one: with the second it would be short by one more. Panes with equal rows are tried once. Where there are few panes, all
    groups are tried as well."""
    whole = shortage(rack, roof)
    in_group = {tuple(roof[pane]): pane for pane in group}
    others = {tuple(row) for pane, row in enumerate(roof) if pane not in group}
    return (len(set(group)) == len(group) and shown(rack, roof, group) == whole
            and all(shortage(rack, roof[:pane] + roof[pane + 1:]) < whole for pane in in_group.values())
            and all(shortage(rack, roof + [list(row)]) == whole for row in others)
            and (len(roof) > 12 or [list(it) for it in groups(roof) if shown(rack, roof, it) == whole] == [group]))
