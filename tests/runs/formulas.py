"""ct_formula_run: its cases, what it refuses, and what it answers, by the formulas of the supplied Rust (scales/conversions) in Python's own floats, and by the exact date."""
import struct

from stamps import DAY, GPS, ODD, TAI, TCB, TCG, TDB, TT, UT1, ZERO77, Exact, allowed, answered, dead, dead_pattern, floats_of, lists_of, moved, pattern, sizes_by_chance, too_few_places

LG, LB = 6.969290134e-10, 1.550519768e-8
T77 = 43144.0 + 32.184 / 86400.0
JD77, TT_DAYS, TDB0 = 2400000.5 + 43144.0, 32.184 / 86400.0, -6.55e-5 / 86400.0


def tdb_to_tcb(big, small):
    f = small - TDB0
    return f - ((JD77 - big) - (f - TT_DAYS)) * (LB / (1.0 - LB))


# what the smaller part becomes
PLAIN = {
    (GPS, TAI): lambda big, small: small + 19.0 / 86400.0,
    (TAI, GPS): lambda big, small: small - 19.0 / 86400.0,
    (TAI, TT): lambda big, small: small + 32.184 / 86400.0,
    (TT, TAI): lambda big, small: small - 32.184 / 86400.0,
    (TT, TCG): lambda big, small: small + ((big - 2400000.5) + (small - T77)) * (LG / (1.0 - LG)),
    (TCG, TT): lambda big, small: small - ((big - 2400000.5) + (small - T77)) * LG,
    (TCB, TDB): lambda big, small: (small + TDB0) - ((big - JD77) + (small - TT_DAYS)) * LB,
    (TDB, TCB): tdb_to_tcb,
}


def later(seconds):
    return lambda big, small: small + seconds / 86400.0


def earlier(seconds):
    return lambda big, small: small - seconds / 86400.0


# the same, by the offset: UT1-TAI, TT-UT1, TDB-TT
BY_OFFSET = {(TAI, UT1): later, (UT1, TAI): earlier, (UT1, TT): later, (TT, UT1): earlier, (TT, TDB): later, (TDB, TT): earlier}
PAIRS = list(PLAIN) + list(BY_OFFSET)
NUMBERS = (*range(10), 4294967295)
OTHERS = [(a, b) for a in NUMBERS for b in NUMBERS if (a, b) not in PAIRS]

# the exact date, in days from Julian date 0.5
LG_EXACT, LB_EXACT, TDB0_EXACT = Exact("6.969290134e-10"), Exact("1.550519768e-8"), Exact("-6.55e-5") / DAY
EXACT = {
    (GPS, TAI): lambda t: t + Exact(19, DAY),
    (TAI, GPS): lambda t: t - Exact(19, DAY),
    (TAI, TT): lambda t: t + Exact(32184, 1000 * DAY),
    (TT, TAI): lambda t: t - Exact(32184, 1000 * DAY),
    (TT, TCG): lambda t: ZERO77 + (t - ZERO77) / (1 - LG_EXACT),
    (TCG, TT): lambda t: t - LG_EXACT * (t - ZERO77),
    (TCB, TDB): lambda t: t - LB_EXACT * (t - ZERO77) + TDB0_EXACT,
    (TDB, TCB): lambda t: ZERO77 + (t - TDB0_EXACT - ZERO77) / (1 - LB_EXACT),
}


def far(pair, before, seconds, after):
    """Whether an answer is further from the exact date than it may be; None where a number is so large that nothing is asked."""
    if not all(abs(x) < 1e7 for x in before) or not abs(seconds) < 2e5:
        return None
    t = Exact(before[0]) + Exact(before[1]) - Exact(1, 2)
    if pair in EXACT:
        due = EXACT[pair](t)
    else:
        due = t + (1 if BY_OFFSET[pair] is later else -1) * Exact(seconds) / DAY
    return abs(Exact(after[0]) + Exact(after[1]) - Exact(1, 2) - due) > allowed(before, after)


# ---- cases: two scales, the bytes of jd1, jd2 and offsets, and the bytes lent
def offset(rng):
    by = rng.random()
    if by < 0.06:
        return dead_pattern(rng)
    if by < 0.12:
        return pattern(rng.choice(ODD))
    if by < 0.16:
        return rng.getrandbits(64)
    return pattern(rng.choice([rng.uniform(-100, 100), rng.uniform(-0.002, 0.002), rng.uniform(-1e5, 1e5), 69.184, -37.0]))


def offsets_of(rng, count):
    return b"".join(offset(rng).to_bytes(8, "little") for _ in range(count))


def good(rng, pair, count):
    firsts, seconds, rooms = lists_of(rng, count)
    return [*pair, firsts, seconds, offsets_of(rng, count) if pair in BY_OFFSET else b"", rooms]


def spoil(rng, case, fault):
    if fault == "places":
        too_few_places(rng, case[2], case[5])
    elif fault == "sizes":
        k = rng.choice([2, 3, 4, 4])
        case[k] = rng.choice([case[k][:-8], case[k] + bytes(8), b"" if case[k] else case[2]])
    elif fault == "length":
        k = rng.choice([2, 3, 4])
        case[k] = case[k] + bytes(rng.randrange(1, 8))
    else:
        case[:2] = rng.choice(OTHERS)


def one_wrong(rng, pair):
    """Two stamps with one length wrong, each in its turn."""
    for k in range(3):
        case = good(rng, pair, 2)
        case[5][k] = (15, 15, 1)[k]
        yield case
    for k in (2, 3, 4):
        for change in (lambda s: s[:-8], lambda s: s + bytes(8), lambda s: s + bytes(1), lambda s: b"" if s else bytes(16)):
            case = good(rng, pair, 2)
            case[k] = change(case[k])
            yield case


def cases(rng, stamps):
    left = stamps
    for pair in PAIRS:
        left -= 40
        yield good(rng, pair, 40)
        yield from one_wrong(rng, pair)
    for pair in OTHERS:
        case = good(rng, rng.choice(PAIRS), 1)
        case[:2] = pair
        yield case
    while left > 0:
        count = sizes_by_chance(rng, left, stamps)
        left -= max(count, 1)
        yield good(rng, rng.choice(PAIRS), count)
        if rng.random() < 0.5:
            case = good(rng, rng.choice(PAIRS), rng.randint(1, 5))
            for fault in ("places", "sizes", "length", "scale"):
                if rng.random() < 0.4:
                    spoil(rng, case, fault)
            left -= 3
            yield case


def refusal(case):
    start, end, firsts, seconds, offsets, rooms = case
    if (start, end) not in PAIRS:
        return 18
    if len(firsts) % 8 or len(seconds) % 8 or len(offsets) % 8:
        return 14
    if len(seconds) != len(firsts) or len(offsets) != (len(firsts) if (start, end) in BY_OFFSET else 0):
        return 12
    if rooms[0] < len(firsts) or rooms[1] < len(firsts) or rooms[2] < len(firsts) // 8:
        return 11
    return 0


def judge(case, said, tally):
    """Whether Python finds a fault in the answer of a call that was not refused. Every byte is known here."""
    start, end, firsts, seconds, offsets, rooms = case
    pair, n = (start, end), len(firsts) // 8
    due = [bytearray(b"\xaa" * room) for room in rooms]
    refused, fault = 0, False
    tally["stamps"] += n
    for i in range(n):
        a, b, c = (int.from_bytes(s[8 * i : 8 * i + 8], "little") for s in (firsts, seconds, offsets))
        number = 9 if dead(a) or dead(b) else 10 if dead(c) else 0
        tally["dead"] += number == 9
        tally["dead_offsets"] += dead(c)
        due[2][i] = number
        if number:
            refused += 1
            continue
        before, seconds_of = (floats_of(a), floats_of(b)), floats_of(c)
        after = moved(*before, BY_OFFSET[pair](seconds_of) if pair in BY_OFFSET else PLAIN[pair])
        due[0][8 * i : 8 * i + 8], due[1][8 * i : 8 * i + 8] = (answered(x).to_bytes(8, "little") for x in after)
        tally["bits"] += 1
        distance = far(pair, before, seconds_of, after)
        if distance is not None:
            tally["exact"] += 1
            fault |= distance
    tally["refused"] += refused
    return fault or said != struct.pack("<q", refused) + b"".join(due)
