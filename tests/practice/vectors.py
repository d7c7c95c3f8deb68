"""The stored input and output of crates/practice_test, worked out from document 02, item 1, with no function of the product.
vectors.py [--check]"""
import pathlib
import struct
import sys

FOLDER = pathlib.Path(__file__).resolve().parents[2] / "crates" / "practice_test"
MOST_EVENTS = 10000
MOST_ROOM = 30100
LENT = 0xAA

# The first twelve events of four seeds, worked out by bc; README.md has the command.
BY_BC = {
    0: "tick, pick 7, switch 2 1, pick 42, pick 34, pick 31, pick 23, pick 35, pick 1, pick 20, switch 1 3, pick 60",
    1: "tick, pick 30, pick 1, pick 52, tick, pick 30, switch 0 6, pick 14, tick, pick 35, pick 0, pick 44",
    2147483648: "pick 60, switch 0 7, pick 17, tick, switch 4 2, tick, switch 2 7, tick, tick, tick, pick 11, tick",
    4294967295: "tick, tick, tick, pick 33, pick 55, switch 3 7, switch 5 1, pick 57, switch 7 7, pick 6, pick 23, tick",
}


# The rule
def draw(seed):
    """The seed that a draw puts in place of this one."""
    return (1664525 * seed + 1013904223) % 4294967296


def draws(seed, count):
    """The new seeds of so many draws, each as 32 binary digits, the highest first."""
    out = []
    for _ in range(count):
        seed = draw(seed)
        out.append(format(seed, "032b"))
    return out


def event(digits):
    """The event that a new seed makes, in words."""
    top_two, next_six = digits[:2], digits[2:8]
    if top_two == "00":
        return "tick"
    if top_two == "11":
        return f"switch {int(next_six[:3], 2)} {int(next_six[3:], 2)}"
    return f"pick {int(next_six, 2)}"


def event_bytes(words):
    """An event of document 01 from its words: 0,0,0 or 1,n,0 or 2,s,k."""
    kind, *numbers = words.split()
    numbers = [int(n) for n in numbers]
    return bytes([["tick", "pick", "switch"].index(kind), *numbers] + [0] * (2 - len(numbers)))


class Case:
    """A call: what it is lent, its refusal, the length that it returns, and the lent bytes afterwards."""

    def __init__(self, seed, count, room):
        assert 0 <= seed < 2**32 and 0 <= count < 2**64 and 0 <= room <= MOST_ROOM
        self.seed, self.count, self.room = seed, count, room
        self.name = f"seed {seed}, count {count}, room {room}"
        self.refusal = 32 if count > MOST_EVENTS else 33 if room < 3 * count else 0
        self.draws = draws(seed, count) if self.refusal == 0 else []
        self.list = b"".join(event_bytes(event(d)) for d in self.draws)
        self.buffer = self.list + bytes([LENT]) * (room - len(self.list))

    def record(self):
        return struct.pack(">IQI", self.seed, self.count, self.room)

    def lines(self):
        return f"{self.name}: {self.refusal}, {len(self.list)}\n{self.buffer.hex()}\n".encode()


# The cases
FOUR_SEEDS = [0, 1, 2147483648, 4294967295]


def first_events():
    """The first twelve of the four seeds, with just the room and with four bytes more."""
    return [(seed, 12, room) for seed in FOUR_SEEDS for room in (36, 40)]


def fronts():
    """One seed, longer and longer lists."""
    return [(20240229, count, 45) for count in (1, 2, 5, 12)]


def borders():
    """Where 33 and 32 begin, and 32 before 33."""
    return [
        (7, 0, 0),
        (7, 0, 5),
        (8, 1, 2),
        (8, 1, 3),
        (9, 12, 0),
        (9, 12, 35),
        (10, 10000, 30000),
        (4294967286, 10000, 30010),
        (10, 10000, 29999),
        (10, 10001, 0),
        (10, 10001, 30003),
        (10, 10001, 30100),
    ]


def too_many():
    """Counts that are small once they, or three times them, are cut to 16, 32 or 64 bits; each with that room, and with more."""
    out = []
    for bits in (16, 32, 64):
        # a third of 2^bits and of twice that, rounded up: three times it is 2 or 1 above
        for third in (2**bits // 3 + 1, 2 ** (bits + 1) // 3 + 1):
            out += [(11, third, 3 * third % 2**bits), (11, third + 4, 3 * (third + 4) % 2**bits)]
    for count in (2**16, 2**16 + 1, 2**32, 2**32 + 1, 2**32 + 12, 2**63, 2**63 + 1):
        out += [(12, count, 3 * count % 2**16), (12, count, 40)]
    return out + [(12, 2**63 - 1, 30100), (12, 2**64 - 1, 0), (12, 2**64 - 1, 30100)]


def at_random():
    """Seeds, counts up to 300 and rooms about three times the count, from x := 48271 x modulo 2^31 - 1."""
    x = 1

    def below(n):
        nonlocal x
        x = 48271 * x % 2147483647
        return x * n // 2147483647

    out = []
    for _ in range(40):
        seed, count = below(65536) * 65536 + below(65536), below(301)
        beside = [0, 0, 0, 1, 2, 3, 30, -1, -2, -3][below(10)]
        out.append((seed, count, max(0, 3 * count + beside)))
    return out


def all_cases():
    return [Case(*c) for c in first_events() + fronts() + borders() + too_many() + at_random()]


# What the cases must show
def hold(cases):
    """Stops where the rule gives other events than bc, or where the cases leave out what they are there for."""
    assert sorted(BY_BC) == FOUR_SEEDS
    for seed, words in BY_BC.items():
        assert ", ".join(event(d) for d in draws(seed, 12)) == words, f"other events of seed {seed} than those by bc"
    shown = [d for c in cases for d in c.draws]
    assert {d[:2] for d in shown} == {"00", "01", "10", "11"}, "a value of the top two bits is missing"
    assert any(d[:2] == "00" and d[2:8] != "000000" for d in shown), "every tick has six bits of 0"
    events = {event(d) for d in shown}
    assert events >= {f"pick {n}" for n in range(64)}, "a node is missing"
    assert events >= {f"switch {s} {k}" for s in range(8) for k in range(8)}, "a switch is missing"
    assert {c.refusal for c in cases} == {0, 32, 33}, "a refusal is missing"
    named = {c.name for c in cases}
    assert len(named) == len(cases), "a case stands twice"
    front = [c.list for c in cases if (c.seed, c.count, c.room) in fronts()]
    assert all(b.startswith(a) and len(a) < len(b) for a, b in zip(front, front[1:])), "a shorter list is no front of a longer one"


# The files
def first_difference(cases, stdin, stdout):
    """The first case of which the stored files have something else; none where they are the same."""
    if stdin == b"".join(c.record() for c in cases) and stdout == output(cases):
        return None
    at = 0
    for k, c in enumerate(cases):
        lines = c.lines()
        if stdin[16 * k : 16 * k + 16] != c.record() or stdout[at : at + len(lines)] != lines:
            return f"case {k + 1}, {c.name}"
        at += len(lines)
    return "what stands behind the last case"


def output(cases):
    return b"".join(c.lines() for c in cases) + f"{len(cases)} cases\n".encode()


def stored(name):
    path = FOLDER / name
    return path.read_bytes() if path.exists() else b""


def main(words):
    if words not in ([], ["--check"]):
        print("tests/practice/run [--check]")
        return 2
    cases = all_cases()
    hold(cases)
    if words:
        difference = first_difference(cases, stored("stdin"), stored("stdout"))
        print(f"the stored files differ: {difference}" if difference else f"{len(cases)} cases, as stored")
        return 1 if difference else 0
    FOLDER.mkdir(exist_ok=True)
    (FOLDER / "stdin").write_bytes(b"".join(c.record() for c in cases))
    (FOLDER / "stdout").write_bytes(output(cases))
    print(f"{len(cases)} cases written")
    return 0


if __name__ == "__main__":
    sys.exit(main(sys.argv[1:]))
