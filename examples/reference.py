"""The programs, and the cost of a link, written from the words of the rules and of RFCs 2328 and 3630, not from the code: slow and short, to check them by."""

import itertools
from fractions import Fraction
from math import inf

BODY = {1: 4, 2: 4, 3: 0, 4: 4, 8: 1}


class Refused(Exception):
    """A number and where it points."""


def fault_of_router(ids, new):
    return 3 if new in ids else 4 if len(ids) == 64 else 0


def fault_of_halves(ids, halves, new, cost):
    """Of one half or of both, each a sender and a receiver."""
    a, b = new[0]
    if a >= len(ids) or b >= len(ids):
        return 5
    if a == b:
        return 6
    if cost == 0:
        return 7
    if any(half in halves for half in new):
        return 8
    if len(halves) + len(new) > 512:
        return 9
    senders = [sender for sender, _ in halves]
    return 10 if any(senders.count(sender) == 16 for sender, _ in new) else 0


def arrive(halves, links, new, cost):
    """A half more, with its cost; with its opposite it makes a link."""
    halves[new] = cost
    if new[::-1] in halves:
        links.append(new[::-1])


def ended(ids, halves, links, limit, at):
    """What is listed at the end, if there are routers; lone halves are dropped."""
    if not ids:
        raise Refused(12, at)
    return ids, [(a, b, halves[a, b], halves[b, a]) for a, b in links], limit


def read(stream):
    """IDs by place, links by number, each with its places and the cost that either sends at, and K."""
    ids, halves, links, limit, at = [], {}, [], 3, 0
    while at < len(stream):
        kind, fault = stream[at], 0
        if kind not in BODY:
            raise Refused(2, at)
        after = at + 1 + BODY[kind]
        if after > len(stream):
            raise Refused(1, at)
        body = stream[at + 1 : after]
        if kind == 1:
            new = int.from_bytes(body, "big")
            fault = fault_of_router(ids, new)
            ids.append(new)
        elif kind in (2, 4):
            a, b, cost = body[0], body[1], int.from_bytes(body[2:], "big")
            new = [(a, b), (b, a)] if kind == 2 else [(a, b)]
            fault = fault_of_halves(ids, halves, new, cost)
            for places in new:
                arrive(halves, links, places, cost)
        elif kind == 8:
            limit = body[0]
            fault = 0 if 1 <= limit <= 16 else 16
        elif after < len(stream):
            raise Refused(11, after)
        else:
            return ended(ids, halves, links, limit, at)
        if fault:
            raise Refused(fault, at)
        at = after
    raise Refused(1, len(stream))


def number(octets):
    return int.from_bytes(octets, "big")


def router_lsa(file, at):
    """The LSA at an offset of the file and its links, each its type, Link ID and metric (RFC 2328, A.4.1 and A.4.2)."""
    end = at + number(file[at + 18 : at + 20])
    if not at + 24 <= end <= len(file) or file[at + 3] != 1:
        raise Refused(26, at)
    links, link = [], at + 24
    for _ in range(number(file[at + 22 : at + 24])):
        if link + 12 > end or link + 12 + 4 * file[link + 9] > end or file[link + 8] not in (1, 2, 3, 4):
            raise Refused(26, at)
        links.append((file[link + 8], number(file[link : link + 4]), number(file[link + 10 : link + 12])))
        link += 12 + 4 * file[link + 9]
    if link != end:
        raise Refused(26, at)
    return file[at:end], links


def is_right(lsa):
    """Of the checksum and both Fletcher sums, without the LS age (RFC 2328, 12.1.7)."""
    c0 = c1 = 0
    for octet in lsa[2:]:
        c0 += octet
        c1 += c0
    return number(lsa[16:18]) != 0 and c0 % 255 == 0 and c1 % 255 == 0


def imported(file):
    """What a file of router-LSAs lists, as `read` has it."""
    found, at = [], 0
    while at < len(file):
        lsa, listed = router_lsa(file, at)
        found.append((at, lsa, listed))
        at += len(lsa)
    for at, lsa, _ in found:
        if not is_right(lsa):
            raise Refused(27, at)
    ids, halves, links = [], {}, []
    for at, lsa, _ in found:
        new = number(lsa[8:12])
        fault = fault_of_router(ids, new)
        if fault:
            raise Refused(fault, at)
        ids.append(new)
    for place, (at, _, listed) in enumerate(found):
        lowest = {}
        for kind, neighbour, metric in listed:
            if kind == 1 and neighbour in ids:
                lowest[neighbour] = min(metric, lowest.get(neighbour, metric))
        for neighbour, cost in lowest.items():  # in the order first listed
            new = (place, ids.index(neighbour))
            fault = fault_of_halves(ids, halves, [new], cost)
            if fault:
                raise Refused(fault, at)
            arrive(halves, links, new, cost)
    return ended(ids, halves, links, 3, 0)


def written(ids, links, limit):
    """The stream of a topology."""
    records = [bytes([8, limit])] + [b"\1" + id.to_bytes(4, "big") for id in ids]
    for a, b, there, back in links:
        if there == back:
            records.append(bytes([2, a, b]) + there.to_bytes(2, "big"))
        else:
            records += [bytes([4, a, b]) + there.to_bytes(2, "big"), bytes([4, b, a]) + back.to_bytes(2, "big")]
    return b"".join(records) + b"\3"


def conversion(file):
    """What the program `import` writes for this input, to standard output and to standard error."""
    if len(file) > 262144:
        return b"", b"too long\n"
    try:
        return written(*imported(file)), b""
    except Refused as refused:
        return b"", b"refused %d %d\n" % refused.args


def sub_tlv(value, at):
    """The sub-TLV at an offset of a Link TLV's value: its type, what it carries, and the offset behind its padding (RFC 3630, 2.3.2)."""
    if at + 4 > len(value):
        raise Refused(29, at)
    kind, length = number(value[at : at + 2]), number(value[at + 2 : at + 4])
    after = at + 4 + (length + 3) // 4 * 4
    if after > len(value) or (kind in (5, 6, 7) and length != 4):
        raise Refused(29, at)
    return kind, value[at + 4 : at + 4 + length], after


def amount(bits):
    """What an IEEE 754 single stands for, exactly; 0 where it is not finite."""
    exponent, fraction = bits >> 23 & 255, bits & 0x7FFFFF
    if exponent == 255:
        return Fraction(0)
    size = Fraction(fraction, 2**149) if exponent == 0 else Fraction(2**23 + fraction) * Fraction(2) ** (exponent - 150)
    return -size if bits >> 31 else size


def gathered(value):
    """The last metric (5), maximum (6) and reservable bandwidth (7) of a value, each as 32 bits (RFC 3630, 2.5)."""
    held, at = {}, 0
    while at < len(value):
        kind, carried, after = sub_tlv(value, at)
        if kind in (6, 7) and amount(number(carried)) < 1:
            raise Refused(28, at)
        if kind in (5, 6, 7):
            held[kind] = number(carried)
        at = after
    return held


def link_cost(value):
    """What the console answers to `te`: number, at and cost, and of each of the three whether it is present, and its 32 bits."""
    try:
        held = gathered(value)
        cost = held.get(5, 0)
        if not 1 <= cost <= 65535:
            if 6 not in held:
                raise Refused(29, len(value))
            cost = min(max(12500000 // amount(held[6]), 1), 65535)
    except Refused as refused:
        return "%d %d 0 0 0 0 0 0 0" % refused.args
    return " ".join(map(str, [0, 0, cost] + [part for kind in (5, 6, 7) for part in (int(kind in held), held.get(kind, 0))]))


def distances(cost, d):
    found = [inf] * len(cost)
    found[d] = 0
    for _ in cost:
        for u, arcs in enumerate(cost):
            found[u] = min([found[u]] + [c + found[v] for v, c in arcs.items()])
    return found


def order(ids, cost, dist, d):
    """The reached routers, in the order of shortest-path mode."""
    placed, reached = [d], [u for u, far in enumerate(dist) if far < inf]
    while len(placed) < len(reached):
        candidates = [
            u
            for u in reached
            if u not in placed and all(v in placed for v, c in cost[u].items() if c + dist[v] == dist[u])
        ]
        placed.append(max(candidates, key=lambda u: (sum(v in placed for v in cost[u]), ids[u])))
    return placed


def lines(ids, cost, limit, d):
    """The lines of one destination. A router without a path to it has rank and greatest count 255 and an empty row."""
    dist = distances(cost, d)
    ranked = order(ids, cost, dist, d)
    rank = {u: r for r, u in enumerate(ranked)}
    row, greatest = {}, {}
    for u in ranked:
        full = sorted((c + dist[v], -ids[v], v) for v, c in cost[u].items() if rank[v] < rank[u])
        row[u] = [v for _, _, v in full[:limit]]
        greatest[u] = max((1 + greatest[v] for v in row[u]), default=0)
    places = range(len(ids))
    return [f"{d} {u} {rank.get(u, 255)} {greatest.get(u, 255)} {' '.join(map(str, row.get(u, []))) or '-'}\n" for u in places]


def listing(stream):
    """What the listing program prints for this input."""
    try:
        ids, links, limit = read(stream[:65536])
    except Refused as refused:
        return "refused %d %d\n" % refused.args
    cost = [{} for _ in ids]
    for a, b, there, back in links:
        cost[a][b], cost[b][a] = there, back
    return "".join(line for d in range(len(ids)) for line in lines(ids, cost, limit, d))


def coverage(stream):
    """What the coverage program prints for this input, counted in what the listing prints."""
    text = listing(stream)
    if text.startswith("refused"):
        return text
    rows = [line.split() for line in text.splitlines()]
    count, links = int(rows[-1][0]) + 1, len(read(stream[:65536])[1])
    hops = [(int(row[0]), 0 if row[4] == "-" else len(row) - 4) for row in rows]
    figures = [(sum(n >= 2 for _, n in hops), count * (count - 1))]
    figures += [(sum(n for d, n in hops if d == place), links) for place in range(count)]
    return "".join("%d %d\n" % figure for figure in figures)


def routes(stream):
    """What the program for routes prints for this input, along the rows that the listing prints. Without a path there is no line."""
    text = listing(stream)
    if text.startswith("refused"):
        return text
    rows = {(int(row[0]), int(row[1])): [] if row[4] == "-" else row[4:] for row in map(str.split, text.splitlines())}

    def ways(d, u):
        if u == d:
            yield [u]
        for v in rows[d, u]:
            for way in ways(d, int(v)):
                yield [u] + way

    printed = []
    for d, u in sorted(rows):
        found = list(itertools.islice(ways(d, u), 513))
        said = [" ".join(map(str, way)) for way in found] if len(found) < 513 else ["more than 512 paths"]
        printed += ["%d %d : %s\n" % (d, u, words) for words in said]
    return "".join(printed)
