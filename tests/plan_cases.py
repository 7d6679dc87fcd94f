#!/usr/bin/env python3
"""Plan files, good and damaged, with the line that opening each must give.

It writes crates/openings/stdin (a file in hexadecimal on each line) and crates/openings/stdout (the expected lines). The
expected lines come from the reader below, which is written from docs/FORMATS.md and docs/REFUSALS.md alone and shares
nothing with the product. Run it in the repository's root after a change of the formats:

    python3 tests/plan_cases.py
"""
import random
import struct


# ---- kinds of resource: is a resource sound, and does it take a demand?

def sound(kind, n):
    if kind == 1:
        return n == (0, 0, 0, 0)
    if kind == 2:
        return 1 <= n[0] <= 4 and n[1] <= 10_000 and n[2] == n[3] == 0
    if kind == 3:
        return 100 <= n[0] <= 100_000 and 1 <= n[1] <= 1_023 and n[2] >= 1 and 1 <= n[3] <= 254 and n[1] * n[2] <= n[0]
    return False


def takes(kind, n, demand):
    return kind != 3 or demand <= n[3]


# ---- the reader

LENGTH = {"H": 6, "R": 18, "A": 8, "P": 8, "T": 12, "E": 4}
FOLLOWS = {None: "H", "H": "R", "R": "RA", "A": "P", "P": "PAT", "T": "TE", "E": "E"}
MOST = {"H": 1, "R": 32, "A": 64, "P": 20, "T": 512, "E": 1_024}


class Refused(Exception):
    pass


def answer(data):
    try:
        return "OK " + " ".join(map(str, read(data)))
    except Refused as refused:
        number, place = refused.args
        return f"NO {number} {place} 0 0 0 0 0 0"


def read(data):
    resources, applications, activities, edges = [], [], [], []
    last, place = None, 0
    while place < len(data) or last is None:
        last, place = field(data, place, last, resources, applications, activities, edges)
    if last not in ("T", "E"):
        raise Refused(1, place)
    if last == "T":
        all_active(applications, activities, place)
    cells = sum(a["turns"] for a in activities)
    return len(resources), len(applications), len(activities), cells, len(edges)


def all_active(applications, activities, place):
    if {a["application"] for a in activities} != set(range(len(applications))):
        raise Refused(5, place)


def field(data, place, last, resources, applications, activities, edges):
    if len(data) < place + 3:
        raise Refused(1, place)
    tag = chr(data[place])
    if tag not in FOLLOWS[last]:
        raise Refused(2, place)
    points = applications[-1]["points"] if applications else []
    held = {"H": 0, "R": len(resources), "A": len(applications), "P": len(points), "T": len(activities), "E": len(edges)}
    if held[tag] >= MOST[tag]:
        raise Refused(5, place)
    if last == "P" and tag in "AT" and (len(points) < 2 or points[-1][0] < applications[-1]["bound"]):
        raise Refused(5, place)
    if last == "T" and tag == "E":
        all_active(applications, activities, place)
    if struct.unpack(">H", data[place + 1:place + 3])[0] != LENGTH[tag]:
        raise Refused(3, place)
    end = place + 3 + LENGTH[tag]
    if len(data) < end:
        raise Refused(1, place)
    body = data[place + 3:end]

    def need(fact, number):
        if not fact:
            raise Refused(number, place)

    if tag == "H":
        need(body[:2] == b"\0\1", 4)
    if tag == "R":
        kind, *n = struct.unpack(">H4I", body)
        need(sound(kind, tuple(n)), 6)
        resources.append((kind, tuple(n)))
    if tag == "A":
        period, bound = struct.unpack(">2I", body)
        need(100 <= period <= 1_000_000 and 1 <= bound <= 2 * period, 4)
        applications.append({"period": period, "bound": bound, "points": []})
    if tag == "P":
        latency, cost = struct.unpack(">2I", body)
        before = points[-1][0] if points else 0
        need(before < latency <= 2_000_000 and 1_000 <= cost <= 1_000_000, 4)
        points.append((latency, cost))
    if tag == "T":
        application, resource, _sender, turns, demand, jitter = struct.unpack(">4B2I", body)
        need(application < len(applications) and resource < len(resources), 4)
        need(1 <= turns <= 64 and 1 <= demand <= 1_000_000 and jitter < applications[application]["period"], 4)
        need(takes(*resources[resource], demand), 7)
        need(sum(a["turns"] for a in activities) + turns <= 2_048, 5)
        activities.append({"application": application, "turns": turns})
    if tag == "E":
        start, end_ = struct.unpack(">2H", body)
        need(start < end_ < len(activities), 8)
        need(activities[start]["application"] == activities[end_]["application"], 8)
        edges.append((start, end_))
    return tag, end


# ---- writing fields

def H(version=1, label=7):
    return b"H" + struct.pack(">HHI", 6, version, label)


def R(kind=1, *n):
    return b"R" + struct.pack(">HH4I", 18, kind, *(n or (0, 0, 0, 0)))


def A(period=1_000, bound=1_000):
    return b"A" + struct.pack(">H2I", 8, period, bound)


def P(latency, cost):
    return b"P" + struct.pack(">H2I", 8, latency, cost)


def T(application=0, resource=0, sender=0, turns=1, demand=300, jitter=0):
    return b"T" + struct.pack(">H4B2I", 12, application, resource, sender, turns, demand, jitter)


def E(start, end):
    return b"E" + struct.pack(">H2H", 4, start, end)


CURVE = P(100, 1_000) + P(1_000, 2_000)
GOOD = H() + R() + A() + CURVE + T()
BUS = (3, 5_000, 20, 200, 32)
RICH = H() + R() + R(2, 2, 5, 0, 0) + R(*BUS) + A() + CURVE + A(5_000, 10_000) + P(1, 1_000) + P(10_000, 1_000_000) + \
    T() + T(0, 1, 0, 2, 1_250, 999) + T(1, 2, 255, 64, 32, 4_999) + E(0, 1) + E(0, 1)


# ---- the cases

def cases():
    # nothing, and almost nothing
    yield from (b"", b"H", b"H\0", b"H\0\6", b"X", b"XYZ", b"HHH")
    yield from (GOOD, RICH)

    # cut short at every byte, and with something left over
    for file in (GOOD, RICH[:120]):
        yield from (file[:n] for n in range(len(file)))
    yield from (GOOD + bytes([b]) for b in (0, 0x45, 0x54, 0x58))
    yield from (GOOD + b"E\0", GOOD + b"E\0\4", GOOD + b"T\0\4", GOOD + b"X\0\4")

    # every byte changed
    for file in (GOOD, RICH):
        for n in range(len(file)):
            yield from (file[:n] + bytes([b]) + file[n + 1:] for b in {0, 1, 0xFF, file[n] ^ 1} - {file[n]})

    # every tag in every place
    parts = {"H": H(), "R": R(), "A": A(), "P": P(100, 1_000), "T": T(), "E": E(0, 1), "C": b"C\0\7" + bytes(7)}
    fronts = (b"", H(), H() + R(), H() + R() + A(), H() + R() + A() + P(100, 1_000), H() + R() + A() + CURVE, GOOD, GOOD + T() + E(0, 1))
    for front in fronts:
        yield from (front + part for part in parts.values())

    # header: version, and the order of its tests
    yield from (H(0), H(2), H(0xFFFF), H(2)[:8], b"H\0\7\0\1", H(1, 0) + GOOD[9:], H(1, 0xFFFFFFFF) + GOOD[9:])

    # resources
    for n in ((1, 0, 0, 0, 1), (0, 0, 0, 0, 0), (4, 0, 0, 0, 0), (2, 0, 0, 0, 0), (2, 1, 0, 0, 0), (2, 4, 10_000, 0, 0),
              (2, 5, 0, 0, 0), (2, 1, 10_001, 0, 0), (2, 1, 0, 1, 0), (3, 99, 1, 1, 1), (3, 100, 1, 1, 1), (3, 100_000, 1_000, 100, 254),
              (3, 100_001, 1, 1, 1), (3, 100, 0, 1, 1), (3, 1_023, 1_023, 1, 1), (3, 1_024, 1_024, 1, 1), (3, 100, 1, 0, 1),
              (3, 100, 1, 101, 1), (3, 100, 2, 51, 1), (3, 100, 1, 1, 0), (3, 100, 1, 1, 255), (3, 100_000, 1_023, 0xFFFFFFFF, 1)):
        yield H() + R(*n) + A() + CURVE + T(demand=1)
    yield from (H() + R() * n + A() + CURVE + T() for n in (32, 33))
    yield H() + R() * 32 + R()[:3]
    yield H() + R() * 32 + b"R\0\1"

    # periods and bounds
    for period, bound in ((99, 1), (100, 0), (100, 1), (100, 200), (100, 201), (1_000_000, 2_000_000), (1_000_000, 2_000_001), (1_000_001, 1)):
        yield H() + R() + A(period, bound) + P(1, 1_000) + P(2_000_000, 1_000) + T(demand=1)

    # points
    for points in (((0, 1_000), (1_000, 1_000)), ((1, 1_000), (1_000, 1_000)), ((1, 999), (1_000, 1_000)), ((1, 1_000_000), (1_000, 1_000)),
                   ((1, 1_000_001), (1_000, 1_000)), ((1, 1_000), (2_000_000, 1_000)), ((1, 1_000), (2_000_001, 1_000)), ((5, 1_000), (5, 1_000)),
                   ((6, 1_000), (5, 1_000)), ((1, 1_000), (999, 1_000)), ((1, 1_000), (1_000, 1_000)), ((1_000, 1_000),), ((999, 1_000),)):
        curve = b"".join(P(*p) for p in points)
        for rest in (T(), A() + CURVE + T() + T(1), b"", b"T", b"T\0\1", E(0, 1), b"A\0\1"):
            yield H() + R() + A() + curve + rest
    for n in (19, 20, 21):
        yield H() + R() + A() + b"".join(P(100 * (i + 1), 1_000) for i in range(n)) + T()
    for n in (64, 65):
        yield H() + R() + (A() + CURVE) * n + b"".join(T(i, jitter=999) for i in range(n))
    # the sixty-fifth application also judges the points of the one before
    yield H() + R() + (A() + CURVE) * 63 + A() + P(100, 1_000) + A()

    # activities
    for t in (dict(application=1), dict(resource=1), dict(application=255), dict(resource=255), dict(sender=255), dict(turns=0), dict(turns=64), dict(turns=65),
              dict(turns=255), dict(demand=0), dict(demand=1), dict(demand=1_000_000), dict(demand=1_000_001), dict(demand=0xFFFFFFFF), dict(jitter=999),
              dict(jitter=1_000), dict(jitter=0xFFFFFFFF)):
        yield H() + R() + A() + CURVE + T(**t)
    for demand in (0, 1, 32, 33, 1_000_000, 1_000_001):
        yield H() + R(*BUS) + A() + CURVE + T(demand=demand)
    for n in (512, 513):
        yield H() + R() + A() + CURVE + T() * n
    for turns in (64, 63):
        yield H() + R() + A() + CURVE + T(turns=64) * 32 + T(turns=turns)
    yield H() + R() + A() + CURVE + T(turns=64) * 31 + T(turns=63) + T() + E(0, 32)
    # limits before the demand, the demand before the number of cells
    yield H() + R(*BUS) + A() + CURVE + T(turns=64, demand=1) * 32 + T(turns=65, demand=33)
    yield H() + R(*BUS) + A() + CURVE + T(turns=64, demand=1) * 32 + T(turns=1, demand=33)
    yield H() + R(*BUS) + A() + CURVE + T(turns=64, demand=1) * 32 + T(turns=1, demand=32)

    # applications without activity, at the end and at the first edge, before the length of that field
    two = H() + R() + (A() + CURVE) * 2
    yield from (two + T(), two + T(1), two + T() + T(1), two + T() + T() + E(0, 1), two + T() + b"E\0\1", two + T() + b"E\0\4", two + T() + T(1) + b"E\0\4")

    # edges
    for start, end in ((0, 1), (1, 0), (0, 0), (0, 2), (2, 3), (0, 3), (1, 3), (0, 4), (3, 4), (0xFFFF, 0), (0, 0xFFFF)):
        yield two + T() + T() + T(1) + T(1) + E(start, end)
    for n in (1_024, 1_025):
        yield GOOD + T() + E(0, 1) * n
    yield GOOD + T() + E(0, 1) * 1_024 + b"E\0\1"

    # many files with several damages
    chance = random.Random(2048)
    for _ in range(400):
        file = bytearray(chance.choice((GOOD, RICH)))
        for _ in range(chance.randint(1, 4)):
            n = chance.randrange(len(file))
            what = chance.randrange(4)
            if what == 0:
                file[n] = chance.randrange(256)
            elif what == 1:
                del file[n:n + chance.randint(1, 12)]
            elif what == 2:
                file[n:n] = file[chance.randrange(len(file)):][:chance.randint(1, 21)]
            else:
                file[n] = chance.choice(b"HRAPTEC")
            if not file:
                break
        yield bytes(file)


def main():
    seen, files, lines = set(), [], []
    for file in cases():
        if file not in seen:
            seen.add(file)
            files.append(file.hex() + "\n")
            lines.append(answer(file) + "\n")
    files += ["0\n", "4x\n"]
    lines += [f"line {len(lines) + n}: not hexadecimal\n" for n in (1, 2)]
    open("crates/openings/stdin", "w").write("".join(files))
    open("crates/openings/stdout", "w").write("".join(lines))
    print(len(lines), "cases")


if __name__ == "__main__":
    main()
