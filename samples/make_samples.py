#!/usr/bin/env python3
"""Writes the sample sheets of this folder. They are always the same, to the byte.

    python3 samples/make_samples.py

The bytes are put together from the table of fields alone (S3 of docs/SPEC.md): nothing here prices, works or checks a sheet.
"""

from pathlib import Path

WORST, WHOLE = 0, 1
OPEN, SETTLED = 0, 1
CEILING = 1_000_000_000


def field(tag, content):
    return bytes([tag]) + len(content).to_bytes(2, "big") + content


def head(kind, stages, start=0, tag=1):
    return field(tag, bytes([kind]) + stages.to_bytes(2, "big") + start.to_bytes(2, "big"))


def ending(cost, value=0, mark=OPEN):
    return field(2, cost.to_bytes(4, "big") + value.to_bytes(4, "big") + bytes([mark]))


def check(cost, findings):
    return field(4, cost.to_bytes(4, "big") + b"".join(f.to_bytes(2, "big") for f in findings))


def junction(checks, value=0, mark=OPEN, chosen=0, count=None):
    """A plain junction; or, with a count, a counted one, which writes it, whatever the number of its checks."""
    content = value.to_bytes(4, "big") + bytes([mark, chosen])
    own = field(3, content) if count is None else field(5, content + bytes([count]))
    return own + b"".join(check(cost, findings) for cost, findings in checks)


def sheet(kind, stages, start=0):
    return head(kind, len(stages), start) + b"".join(stages)


def draft(kind, stages, start=0):
    """A sheet whose findings may be any of its stages: it is to be rearranged before it is worked."""
    return head(kind, len(stages), start, tag=6) + b"".join(stages)


def sheet_a(first_cost=200):
    """Sheet A of the worked examples (S11), whose first check costs 200."""
    return sheet(WORST, [
        junction([(first_cost, [1, 3]), (500, [3])]),
        junction([(400, [2, 3])]),
        ending(100),
        ending(0),
    ])


def sheet_b(kind=WORST, value=0, first_finding=1, mark=OPEN):
    """Sheet B of the worked examples (S11), with its junction's value, its first finding and the mark of ending 1."""
    return sheet(kind, [
        junction([(100, [first_finding, 2])], value=value),
        ending(30, mark=mark),
        ending(50),
    ])


def sheet_c(kind):
    """Sheet C of the worked examples (S11): two of its findings share the largest value, and stand neither first nor last."""
    return sheet(kind, [
        junction([(10, [1, 2, 3, 4])]),
        ending(10),
        ending(40),
        ending(40),
        ending(20),
    ])


def two_cradles(kind=WHOLE):
    """A gearbox (stage 0) on two identical cradles (stage 1), each of which rides on two identical bearings (stage 2).

    The gearbox is opened (4.00), and then both cradles are done and the oil is filled in (stage 4); or it is exchanged (60.00), and the oil
    filled in. A cradle gets new bearings, pressed in (3.00), or is exchanged (12.00) and aligned (stage 3).
    """
    return sheet(kind, [
        junction([(400, [1, 1, 4]), (6000, [4])]),
        junction([(300, [2, 2]), (1200, [3])]),
        ending(850),
        ending(350),
        ending(900),
    ])


def sheet_f():
    """Sheet F of the worked examples (S11): one junction, whose checks have all been withdrawn. It is the shortest sheet, of 17 bytes."""
    return sheet(WORST, [junction([])])


def sheet_h():
    """Sheet H of the worked examples (S11): both checks of junction 0 lead to junction 1, which has none."""
    return sheet(WORST, [
        junction([(10, [1]), (100, [1])]),
        junction([]),
    ])


def sheet_i():
    """Sheet I of the worked examples (S11): junction 0 has a check that leads to junction 13, which has none, and a check at the ceiling.

    Junctions 1 to 11 have one check each (1,000,000), whose findings are all stages behind it up to ending 12 (1,000,000): least costs
    double from stage to stage. These twelve are settled at them, cut to the ceiling; junctions 0 and 13 are open at the ceiling.
    """
    least = {number: min(1_000_000 * 2 ** (12 - number), CEILING) for number in range(1, 13)}
    doubling = [junction([(1_000_000, range(number + 1, 13))], value=least[number], mark=SETTLED) for number in range(1, 12)]
    return sheet(WHOLE, [
        junction([(1, [13]), (1, [1, 2])], value=CEILING),
        *doubling,
        ending(1_000_000, value=least[12], mark=SETTLED),
        junction([], value=CEILING),
    ])


def sheet_j(lost=False):
    """Sheet J of the worked examples (S11): sheet A with junction 0 counted, its number 2, also where the field of its check 1 is lost."""
    checks = [(200, [1, 3]), (500, [3])]
    return sheet(WORST, [
        junction(checks[:1] if lost else checks, count=2),
        junction([(400, [2, 3])]),
        ending(100),
        ending(0),
    ])


def sheet_k(circle=False):
    """Sheet K of the worked examples (S11), a draft of sheet A: its endings come first, and junction 2, the start, points back to ending 1.

    With a circle junction 3 leads back to junction 2, which leads to it.
    """
    return draft(WORST, [
        ending(100),
        ending(0),
        junction([(200, [1, 3]), (500, [1])]),
        junction([(400, [0, 2] if circle else [0, 1])]),
    ], start=2)


def many_stages(stages):
    """A junction whose one check (100) leads to the first ending and to the last, and endings, each of which costs its own number."""
    return sheet(WORST, [junction([(100, [1, stages - 1])])] + [ending(number) for number in range(1, stages)])


def chain(junctions):
    """Each junction has one check (1), which leads to the next stage; the ending costs 0. All values are least costs."""
    return sheet(WORST, [junction([(1, [number + 1])], value=junctions - number) for number in range(junctions)] + [ending(0)])


class Draws:
    """Park and Miller's numbers: each is 16,807 times the one before, modulo 2,147,483,647."""

    def __init__(self, first):
        self.last = first

    def below(self, limit):
        self.last = self.last * 16807 % 2147483647
        return self.last % limit


def forty():
    """Forty junctions with four checks each, then twenty-four endings: the repairs.

    A check costs 9.00 to 120.00 in steps of 3.00 and leads to two to four later stages: junctions at most nine numbers on, and from
    junction 24 on repairs too. A repair costs 20.00 to 640.00 in steps of 20.00.
    """
    draws = Draws(40)
    junctions, endings = 40, 24
    stages = []
    for number in range(junctions):
        checks = []
        for _ in range(4):
            findings = set()
            for _ in range(2 + draws.below(3)):
                later = number + 1 + draws.below(9)
                repair = junctions + draws.below(endings)
                narrowed = draws.below(2) == 0 and number >= 24
                findings.add(repair if narrowed or later >= junctions else later)
            checks.append(((9 + 3 * draws.below(38)) * 100, sorted(findings)))
        stages.append(junction(checks))
    stages += [ending((20 + 20 * draws.below(32)) * 100) for _ in range(endings)]
    return sheet(WORST, stages)


def ladder(junctions):
    """Junctions in pairs and an ending: each has two checks (9,000.00 to 10,000.00), one for each junction of the next pair.

    The checks of the last pair lead to the ending, which costs 0.
    """
    draws = Draws(2048)
    stages = []
    for number in range(junctions):
        following = number // 2 * 2 + 2
        stages.append(junction([
            (900_000 + draws.below(100_001), [min(finding, junctions)]) for finding in (following, following + 1)
        ]))
    return sheet(WORST, [*stages, ending(0)])


SAMPLES = {
    "a.sheet": sheet_a(),
    "b-worst.sheet": sheet_b(WORST),
    "b-whole.sheet": sheet_b(WHOLE),
    "c-worst.sheet": sheet_c(WORST),
    "c-whole.sheet": sheet_c(WHOLE),
    "forty.sheet": forty(),
    # one stage listed twice in a check, which a whole sheet may do and a worst one may not
    "two-cradles.sheet": two_cradles(),
    "two-cradles-worst.sheet": two_cradles(WORST),
    # junctions that have no check left: no complete plan, and a plan beside it that costs the ceiling or more
    "no-check-left.sheet": sheet_h(),
    "no-check-left-over.sheet": sheet_i(),
    # a counted junction, which writes the number of its checks, beside a plain one
    "counted.sheet": sheet_j(),
    # a draft, which price refuses by 3 and the rearranger turns into sheet A; and one that the rearranger refuses
    "draft.sheet": sheet_k(),
    "refused-11.sheet": sheet_k(circle=True),
    # as many stages as a sheet may have, one more, and the deepest chain that 60,000 bytes hold
    "stages-4096.sheet": many_stages(4096),
    "stages-4097.sheet": many_stages(4097),
    "deep.sheet": chain(3332),
    # few bytes and many raises
    "ladder.sheet": ladder(512),
    # one for each refusal that a sheet alone can get
    "refused-2.sheet": sheet_f()[:16],
    "refused-3.sheet": head(WORST, 0) + sheet_b()[8:],
    "refused-4.sheet": sheet_a(first_cost=0)[:-1],
    "refused-5.sheet": sheet_a(first_cost=0),
    "refused-6.sheet": sheet_b(first_finding=0),
    "refused-7.sheet": sheet_b(value=101),
    "refused-8.sheet": sheet_b(mark=SETTLED),
    "refused-10.sheet": sheet_j(lost=True),
}


def main():
    folder = Path(__file__).resolve().parent
    for name, content in SAMPLES.items():
        (folder / name).write_bytes(content)
        print(name, len(content), "bytes")


if __name__ == "__main__":
    main()
