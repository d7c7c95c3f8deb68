"""The tests of cases_test that are made by hand: each with a name, its bytes, and what documents 01 and 02 give for it,
read from the papers and not from a program. The bench papers K1 to K11 of document 01 stand in the names.

What the paper gives: parts split by ';'. A part is a line of a call as cases_test writes it, `CALL R, NUMBERS`, of a run with
its answers behind it where they are told (`200 x3` is an answer three times in a row), or `table = HEX`, `records = HEX`."""
from comparisons import of_resets
from forms import *


def test(kind, name, program, begin, es, says, rooms):
    """Prints the test as a line of fields."""
    assert says, name
    print(kind, name, program.hex(), begin.hex(), events(es).hex(), *rooms, says, sep="\t")


def of_schedule(name, file, begin, es, says, table_room=2000, record_room=2000, other_room=None):
    """All calls on a schedule, and on its table where it compiles. Examining's other records get a byte more where nothing else is said."""
    other_room = record_room + 1 if other_room is None else other_room
    test("schedule", name, file, begin, es, says, (table_room, record_room, other_room))


def of_table(name, table, begin, es, says, record_room=2000):
    """The two calls on a table."""
    test("table", name, table, begin, es, says, (0, record_room, 0))


def unexamined(n):
    return f"examine {n}, 0 0 0 0 0 0 0 0"


def tight(name, file, begin, es, counts, table, comparisons, records):
    """With just the room that a table and records of so many bytes take, and with a byte less for one of the three buffers."""
    compiled = f"compile 0, {table} {comparisons}"
    runs = f"rules 0, {counts}; by table 0, {counts}"
    examined = f"examine 0, {table} {counts} {counts} 1"
    of_schedule(f"{name}: just the room", file, begin, es, f"{compiled}; {runs}; {examined}", table, records, records)
    says = f"compile 14, 0 0; rules 0, {counts}; {unexamined(14)}"
    of_schedule(f"{name}: a byte less for the table", file, begin, es, says, table - 1, records, records)
    says = f"{compiled}; rules 22, 0 0 0; by table 22, 0 0 0; {unexamined(22)}"
    of_schedule(f"{name}: a byte less for the records", file, begin, es, says, table, records - 1, records)
    says = f"{compiled}; {runs}; {unexamined(22)}"
    of_schedule(f"{name}: a byte less for the other records", file, begin, es, says, table, records, records - 1)


def changed(b, at, v):
    """b with another byte at a place."""
    return b[:at] + bytes([v]) + b[at + 1 :]


# K1, spelled as in the papers: document 02 makes node 1 a REINITIAL
K1 = bytes.fromhex(
    "01 0038 000D 01 00000000 0000000A 00000000 0009 01 0006 01 00 00000001"
    "0019 03 020102 0A0700100200 0100000001 0905200100000003 0200"
)
K1_TABLE = bytes.fromhex(
    "01 0000004B 000D 01 00000000 0000000A 00000000 0009 01 0006 01 00 00000001"
    "0018 02 0B0103001002000100000001 0A02022001000000030200 0000000E 0002 01 01 0001 FFFF 01 02 FFFE FFFF"
)
of_schedule("K1 K2, from 0", K1, start([0]), "t p1 p2 t t t p2 t",
    "read 0, 1 0 3; size 0, 2 2; compile 0, 75 1; read table 0, 1 0 2 2; rules 0, 4 4 0: 27 200 29 200 x2 31 201 23; "
    "by table 0, 4 4 0: 27 200 29 200 x2 31 201 23; examine 0, 75 4 4 0 4 4 0 1; table = " + K1_TABLE.hex())
of_schedule("K1 K3, from 10", K1, start([10]), "p1 t",
    "rules 0, 0 1 1: 203 23; by table 0, 0 1 1; examine 0, 75 0 1 1 0 1 1 1; "
    "records = CB 0000000000000000 0000000A 17 0000000000000000 0000000A")
of_schedule("K1 K4, from 9", K1, start([9]), "p1 p2",
    "rules 0, 2 0 0: 200 201; by table 0, 2 0 0; examine 0, 75 2 0 0 2 0 0 1; "
    "records = C8 0000000000000004 0000000A C9 0000000000000000 0000000A")
tight("K1 K4", K1, start([9]), "p1 p2", "2 0 0", 75, 1, 26)
of_table("K1's table as in the paper", K1_TABLE, start([9]), "p1 p2", "read table 0, 1 0 2 2; by table 0, 2 0 0: 200 201")

# what most files below have: one variable from 0 to 10, no equation, and one node, a RESET; some have a REINITIAL in its place
V = variables((0, 10, 0))
NO_EQUATION = equations()
LEAF = reset(0, const(1))
REINITIAL_LEAF = reinitial(0, const(1))
Z = start([0])


def refused(n, name, file, begin=Z, es="p0"):
    """All calls on it are refused with n."""
    says = f"read {n}, 0 0 0; size {n}, 0 0; compile {n}, 0 0; rules {n}, 0 0 0; {unexamined(n)}"
    of_schedule(f"{n}: {name}", file, begin, es, says)


def tree(t, es=NO_EQUATION, vs=V):
    return schedule(vs, es, t)


def plant(*es, vs=V, leaf=LEAF):
    return schedule(vs, equations(*es), leaf)


def with_reinitial(*es):
    """With these equations, and a REINITIAL as the one node."""
    return plant(*es, leaf=REINITIAL_LEAF)


# 1, 2, 3
refused(1, "empty file (K11)", b"")
refused(1, "two bytes", b"\x01\x00")
refused(1, "version 0", changed(K1, 0, 0))
refused(1, "version 2", changed(K1, 0, 2))
refused(2, "01 00 04 (K11)", b"\x01\x00\x04")
refused(2, "length one less", changed(K1, 2, 55))
refused(2, "length one more", changed(K1, 2, 57))
refused(2, "a byte after the file", K1 + b"\x00")
refused(2, "the length's upper byte", changed(K1, 1, 1))
refused(3, "01 00 03 (K11)", b"\x01\x00\x03")
refused(3, "first section one byte longer", changed(K1, 4, 14))
refused(3, "first section past the end", changed(K1, 3, 1))
refused(3, "second section past the end", changed(K1, 18, 1))
refused(3, "third section one byte longer", changed(K1, 30, 26))
refused(3, "third section one byte shorter", changed(K1, 30, 24))
refused(3, "third section missing", b"\x01" + n2(3 + 15 + 3) + n2(13) + V + n2(1) + NO_EQUATION)
refused(3, "one byte of the third length", b"\x01" + n2(3 + 15 + 3 + 1) + n2(13) + V + n2(1) + NO_EQUATION + b"\x00")

# 4, 5
refused(4, "no variables", file_of(b"\x00", NO_EQUATION, nodes(LEAF)))
refused(4, "33 variables", tree(LEAF, vs=variables(*[(0, 10, 0)] * 33)))
refused(4, "empty variable section", file_of(b"", NO_EQUATION, nodes(LEAF)))
refused(4, "a byte too many", file_of(V + b"\x00", NO_EQUATION, nodes(LEAF)))
refused(4, "a byte too few", file_of(V[:-1], NO_EQUATION, nodes(LEAF)))
refused(4, "count 2 with one variable", file_of(changed(V, 0, 2), NO_EQUATION, nodes(LEAF)))
refused(5, "initial below minimum", tree(LEAF, vs=variables((0, 10, -1))))
refused(5, "initial above maximum", tree(LEAF, vs=variables((0, 10, 11))))
refused(5, "minimum above maximum", tree(LEAF, vs=variables((5, 4, 4))))
refused(5, "the last of 32", tree(LEAF, vs=variables(*[(0, 10, 0)] * 31, (LOWEST, HIGHEST - 1, HIGHEST))))
of_schedule("one value only", tree(LEAF, vs=variables((1, 1, 1))), start([1]), "p0", "read 0, 1 0 1; rules 0, 1 0 0: 201; compile 0, 47 0")
WIDE = tree(reset(31, const(LOWEST)), vs=variables(*[(LOWEST, HIGHEST, 0)] * 32))
of_schedule("32 variables, the whole range", WIDE, start([HIGHEST] * 32), "p0",
    "read 0, 32 0 1; rules 0, 1 0 0: 201; read table 0, 32 0 1 1; by table 0, 1 0 0")

# 6, 7, 8
ONE_MODE = case(0, mode())
refused(6, "empty equation section", file_of(V, b"", nodes(LEAF)))
refused(6, "17 equations", schedule(V, equations(*[ONE_MODE] * 17), LEAF))
refused(6, "an equation missing", file_of(V, changed(equations(ONE_MODE), 0, 2), nodes(LEAF)))
refused(6, "a byte left over", file_of(V, equations(ONE_MODE) + b"\x00", nodes(LEAF)))
refused(6, "a record longer than the section", file_of(V, changed(equations(ONE_MODE), 2, 6), nodes(LEAF)))
refused(6, "half a length", file_of(V, b"\x01\x00", nodes(LEAF)))
refused(6, "an empty record", file_of(V, b"\x01\x00\x00", nodes(LEAF)))
refused(6, "kind 0", plant(b"\x00\x00" + i4(1)))
refused(6, "kind 3", plant(b"\x03\x00" + i4(1)))
refused(6, "a rate of five bytes", with_reinitial(rate(0, 1) + b"\x00"))
refused(6, "a rate of three bytes", with_reinitial(rate(0, 1)[:-1]))
refused(6, "no modes", plant(b"\x02\x00\x00"))
refused(6, "nine modes", plant(case(0, *[mode()] * 9)))
refused(6, "a CASE without its mode count", plant(b"\x02\x00"))
refused(6, "a mode missing", plant(changed(ONE_MODE, 2, 2)))
refused(6, "bytes after the last mode", plant(ONE_MODE + b"\x00"))
refused(6, "rates cut", with_reinitial(changed(case(0, mode([(0, 1)])), 3, 2)))
refused(6, "no switch count", plant(case(0, b"\x00")))
refused(6, "a switch missing", plant(case(0, b"\x00\x01")))
refused(6, "a switch of length 0", plant(case(0, b"\x00\x01\x00")))
refused(6, "a switch past its record", plant(case(0, b"\x00\x01\x03\x00\x2F")))
refused(6, "6 later than what 7 is for", plant(rate(1, 1), b"\x00"))
of_schedule("no switch, no rate", plant(ONE_MODE), start([0], [0]), "p0", "read 0, 1 1 1; rules 0, 1 0 0: 201")
of_schedule("16 selectors", schedule(V, equations(*[ONE_MODE] * 16), LEAF), start([0], [0] * 16), "t p0 t",
    "read 0, 1 16 1; rules 0, 1 2 0: 27 201 23; by table 0, 1 2 0")
tight("16 selectors", schedule(V, equations(*[ONE_MODE] * 16), LEAF), start([0], [0] * 16), "t p0 t", "1 2 0", 159, 0, 87)
of_schedule("8 modes, the last current", with_reinitial(case(7, *[mode()] * 7, mode([(0, 3)], [(7, FALSE)]))), start([0], [7]),
    "s0.0 s0.1 p0", "read 0, 1 1 1; rules 0, 1 2 0: 30 26 201")
refused(7, "a rate of a missing variable", plant(rate(1, 1)))
refused(7, "initial mode missing", plant(case(1, mode())))
refused(7, "a mode's rate of a missing variable", with_reinitial(case(0, mode(), mode([(0, 1), (1, 1)]))))
refused(7, "a switch to a missing mode", plant(case(0, mode(), mode([], [(0, TRUE), (2, TRUE)]))))
refused(7, "7 later than what 8 is for", with_reinitial(rate(0, 1), rate(0, 1), rate(1, 1)))
refused(8, "two rates of one variable", with_reinitial(rate(0, 1), rate(0, 1)))
refused(8, "a rate and a CASE", with_reinitial(rate(0, 1), case(0, mode(), mode([(0, 1)]))))
refused(8, "two CASEs", with_reinitial(case(0, mode([(0, 1)])), case(0, mode(), mode([(0, 2)]))))
refused(8, "twice in one mode", with_reinitial(case(0, mode(), mode([(0, 1), (0, 1)]))))
of_schedule("one variable in two modes", with_reinitial(case(0, mode([(0, 1)]), mode([(0, 2)]))), start([0], [1]), "p0",
    "read 0, 1 1 1; rules 0, 1 0 0: 201")

# 9, 10, 11
def raw(*ns, count=None):
    """A file of these nodes' bytes, with another count where one is given."""
    return file_of(V, NO_EQUATION, bytes([len(ns) if count is None else count]) + b"".join(bytes([len(n)]) + n for n in ns))


refused(9, "empty schedule section", file_of(V, NO_EQUATION, b""))
refused(9, "no nodes", file_of(V, NO_EQUATION, b"\x00"))
refused(9, "65 nodes", tree(parallel(*[STOP] * 64)))
refused(9, "a node missing", raw(b"\x09", count=2))
refused(9, "a byte left over", file_of(V, NO_EQUATION, nodes(STOP) + b"\x01"))
refused(9, "a node cut", file_of(V, NO_EQUATION, b"\x01\x02\x09"))
refused(9, "length 0", file_of(V, NO_EQUATION, b"\x01\x00"))
refused(9, "kind 0", raw(b"\x00"))
refused(9, "kind 10", raw(b"\x0A"))
refused(9, "a SEQUENCE without its count", raw(b"\x01", b"\x09"))
refused(9, "a SEQUENCE of two bytes", raw(b"\x01\x01\x00", b"\x09"))
refused(9, "a SEQUENCE of none", raw(b"\x01\x00"))
refused(9, "a PARALLEL of none", raw(b"\x02\x00"))
refused(9, "a RESET without its variable", raw(b"\x06"))
refused(9, "a REINITIAL without its variable", raw(b"\x07"))
refused(9, "a SWITCH of one byte", raw(b"\x08\x00"))
refused(9, "a SWITCH of three bytes", raw(b"\x08\x00\x00\x00"))
refused(9, "a STOP of one byte", raw(b"\x09\x00"))
refused(9, "9 later than what 10 is for", raw(b"\x09", b"\x09", b"\x00"))
refused(10, "two roots", tree(STOP + STOP))
refused(10, "a node after the tree", tree(sequence(STOP) + STOP))
refused(10, "a SEQUENCE with a child missing", raw(b"\x01\x02", b"\x09"))
refused(10, "a WHILE without its child", tree(node(3, TRUE)))
refused(10, "an IF with one child", tree(node(4, TRUE) + STOP))
refused(10, "255 children", raw(b"\x01\xFF", b"\x09"))
refused(10, "10 later than what 11 is for", tree(reset(1, const(1)) + STOP))
refused(11, "RESET of a missing variable", tree(reset(1, const(1))))
refused(11, "REINITIAL of a missing variable", tree(reinitial(255, const(1))))
refused(11, "SWITCH of a missing selector", tree(switch(0, 0)))
refused(11, "SWITCH to a missing mode", schedule(V, equations(ONE_MODE), switch(0, 1)))
refused(11, "11 later than what 12 is for", tree(sequence(reset(0, b""), reset(1, const(1)))))

# lengths of a node: 1 (STOP), 200 and 201
def long_number(n):
    """A number of n bytes, of depth 10 at most: sums of variable 0, and negations to make up the length."""
    whole = (n - 2) // 3
    zeros = [var(0)] * (whole + 1)
    while len(zeros) > 1:
        zeros = [add(*zeros[i : i + 2]) if i + 1 < len(zeros) else zeros[i] for i in range(0, len(zeros), 2)]
    return negs((n - 2) % 3, zeros[0])


of_schedule("a node of length 200", tree(reset(0, long_number(198))), Z, "p0",
    "read 0, 1 0 1; rules 0, 1 0 0: 201; compile 0, 240 0; read table 0, 1 0 1 1")
refused(9, "a node of length 201", tree(reset(0, long_number(199))))
of_schedule("a node of length 1", tree(STOP), Z, "p0 p0",
    "read 0, 1 0 1; rules 0, 1 1 0: 202 23; compile 0, 41 0; read table 0, 1 0 1 1; by table 0, 1 1 0")

# 12
def number(n):
    return tree(reset(0, n))


def truth(t):
    return tree(until(t))


def switched(t):
    return plant(case(0, mode([], [(0, t)])))


refused(12, "RESET with no number", number(b""))
refused(12, "CONTINUE with no truth", truth(b""))
refused(12, "WHILE with no truth", tree(loop(b"", LEAF)))
refused(12, "IF with no truth", tree(either_of(b"", LEAF, LEAF)))
refused(12, "a constant cut", number(const(1)[:-1]))
refused(12, "a variable cut", number(b"\x02"))
refused(12, "a sum with one operand", number(b"\x10" + const(1)))
refused(12, "a comparison with one operand", truth(b"\x20" + var(0)))
refused(12, "a byte after a number", number(const(1) + b"\x00"))
refused(12, "a second truth", truth(TRUE + TRUE))
refused(12, "a truth for a number", number(TRUE))
refused(12, "a number for a truth", truth(const(1)))
refused(12, "a truth in a sum", number(add(const(1), TRUE)))
refused(12, "a number under and", truth(both(TRUE, const(1))))
refused(12, "a number under not", truth(no(var(0))))
refused(12, "a truth under a comparison", truth(eq(TRUE, TRUE)))
refused(12, "a missing variable", number(add(var(0), var(1))))
refused(12, "variable 255", truth(le(var(255), const(0))))
for code in (0x00, 0x03, 0x0F, 0x13, 0x15, 0x1F, 0xFF):
    refused(12, f"unknown code {code:02X} for a number", number(bytes([code]) + const(1)))
for code in (0x24, 0x27, 0x2B, 0x2E, 0x30):
    refused(12, f"unknown code {code:02X} for a truth", truth(bytes([code]) + TRUE))
refused(12, "a switch with no truth", switched(b""))
refused(12, "a switch with a number", switched(var(0)))
refused(12, "a switch of depth 17", switched(b"\x2A" * 16 + TRUE))
refused(12, "the second mode's second switch", plant(case(0, mode(), mode([], [(1, TRUE), (0, le(var(1), const(0)))]))))
# K10, and the same for truths, for comparisons over numbers, and down the right side
of_schedule("K10: a number of depth 16", number(negs(15, var(0))), Z, "p0",
    "read 0, 1 0 1; rules 0, 1 0 0: 201; read table 0, 1 0 1 1; by table 0, 1 0 0")
refused(12, "K10: a number of depth 17", number(negs(16, var(0))))
of_schedule("a truth of depth 16", truth(b"\x2A" * 15 + TRUE), Z, "p0 t", "read 0, 1 0 1; rules 0, 1 1 0: 29 200")
refused(12, "a truth of depth 17", truth(b"\x2A" * 16 + TRUE))
of_schedule("a comparison of depth 16", truth(le(const(0), negs(14, var(0)))), Z, "t p0", "read 0, 1 0 1; rules 0, 1 1 0: 31 201")
refused(12, "a comparison of depth 17", truth(le(const(0), negs(15, var(0)))))


def right(k):
    """A sum of depth k + 1 whose right operands are sums."""
    return var(0) if k == 0 else add(const(1), right(k - 1))


of_schedule("depth 16 on the right", tree(reset(0, right(15)), vs=variables((0, 15, 0))), Z, "p0", "read 0, 1 0 1; rules 0, 1 0 0: 201")
of_schedule("depth 16 on the right, beyond the range", tree(reset(0, right(15)), vs=variables((0, 14, 0))), Z, "p0", "rules 0, 0 0 1: 203")
refused(12, "depth 17 on the right", number(right(16)))
of_schedule("a switch of length 255", plant(case(0, mode([], [(0, le(const(1), long_number(248)))]))), start([0], [0]), "s0.0 p0",
    "read 0, 1 1 1; rules 0, 1 1 0: 30 201")
of_schedule("255 switches", plant(case(0, mode([], [(0, FALSE)] * 254 + [(0, le(const(0), var(0)))]))),
    start([0], [0]), "s0.0 s0.253 s0.254 s0.255 p0",
    "read 0, 1 1 1; rules 0, 1 4 0: 30 x2 200 26 28")

# trees at their limits
of_schedule("64 nodes: PARALLEL of 63 STOPs", tree(parallel(*[STOP] * 63)), Z, "p0 p64 t p63 p1",
    "read 0, 1 0 64; size 0, 1 63; rules 0, 1 4 0: 25 x2 27 202 23; compile 0, 537 0; read table 0, 1 0 63 1")
of_schedule("64 nodes: SEQUENCE of 63 RESETs", tree(sequence(*[LEAF] * 63)), Z, "p2 p1 p1 p2 p3",
    "read 0, 1 0 64; rules 0, 3 2 0: 25 200 25 200 x2; read table 0, 1 0 63 63")
# 63 WHILEs, number i the location at which WHILE i acts: on true each leads to the next number, which is new (1 + 2 + .. + 63),
# on false each but the first to the one before (1 + 2 + .. + 62), and the RESET to 62 (63)
deep = LEAF
for i in range(63):
    deep = loop(le(var(0), const(9)), deep)
of_schedule("64 nodes: 63 WHILEs, one in the other", tree(deep), Z, " ".join(f"p{i}" for i in range(64)) + " p62 p63 p61",
    "read 0, 1 0 64; size 0, 64 64; rules 0, 66 1 0: 200 x66 25; compile 0, 1118 4032; read table 0, 1 0 64 64")
deep = until(TRUE)
for i in range(63):
    deep = sequence(deep)
of_schedule("64 nodes: 63 SEQUENCEs, one in the other", tree(deep), Z, "t p63",
    "read 0, 1 0 64; rules 0, 1 1 0: 31 201; compile 0, 42 0; read table 0, 1 0 1 1")
of_schedule("64 nodes: PARALLEL of 63 CONTINUEs", tree(parallel(*[until(lt(const(0), var(0)))] * 63)), Z, "t p63",
    "read 0, 1 0 64; size 0, 1025 0; rules 0, 1 1 0: 200 29; compile 13, 0 0")
# 63 locations in a row: 1 + 2 + .. + 62 comparisons
of_schedule("64 nodes of length 200", tree(sequence(*[reset(0, long_number(198))] * 63)), Z, "p1 p2",
    "read 0, 1 0 64; rules 0, 2 0 0: 200 x2; compile 0, 13136 1953; read table 0, 1 0 63 63", table_room=13136)

# K5 to K9. Comparisons: K5 has 1 and 2 for the two new locations; K6 has 1 for the body, which is new, and 1 for location 0 again;
# K7 has 1 for the location at which the STOP is left
of_schedule("K5: PARALLEL of two RESETs", tree(parallel(LEAF, LEAF)), Z, "p2 p2 p1",
    "size 0, 3 4; compile 0, 73 3; rules 0, 2 1 0: 200 25 201; read table 0, 1 0 2 3; by table 0, 2 1 0")
of_schedule("K6: WHILE over a RESET", tree(loop(lt(var(0), const(2)), reset(0, add(var(0), const(1))))), Z, "p1 p0 p0 p1 p0 p1 p0",
    "size 0, 2 2; compile 0, 67 2; rules 0, 5 2 0: 25 200 25 200 x3 201; read table 0, 1 0 2 2")
of_schedule("K7: PARALLEL of STOP and CONTINUE", tree(parallel(STOP, until(TRUE))), Z, "t p2 p1 p1",
    "size 0, 2 3; compile 0, 56 1; rules 0, 2 2 0: 27 200 202 23; read table 0, 1 0 2 2")
RESETS = [reset(0, const(1))] * 10
# K8's comparisons, those with a RESET before it, and those with STOPs beside the RESETs, so that the location without RESETs is there too
K8_COMPARED, K8_COMPARED_BEHIND_ONE, K8_COMPARED_BESIDE_STOPS = 3074628, 3079739, 3084867
assert K8_COMPARED == of_resets(10)
assert K8_COMPARED_BEHIND_ONE == of_resets(10, before=1)
assert K8_COMPARED_BESIDE_STOPS == of_resets(10, beside_stops=True)
of_schedule("K8: PARALLEL of ten RESETs", tree(parallel(*RESETS)), Z, "p10 p9 p8 p7 p6 p5 p4 p3 p2 p1",
    f"size 0, 1023 5120; rules 0, 10 0 0: 200 x9 201; compile 0, 26745 {K8_COMPARED}; read table 0, 1 0 10 1023; by table 0, 10 0 0; "
    "examine 0, 26745 10 0 0 10 0 0 1", table_room=65536)
of_schedule("K8: one RESET before it", tree(sequence(LEAF, parallel(*RESETS))), Z, "p1 p3 p12 p3",
    f"size 0, 1024 5121; rules 0, 3 1 0: 200 x3 25; compile 0, 26760 {K8_COMPARED_BEHIND_ONE}; read table 0, 1 0 11 1024", table_room=65536)
tight("K8: one RESET before it", tree(sequence(LEAF, parallel(*RESETS))), Z, "p1 p3 p12 p3", "3 1 0", 26760,
    K8_COMPARED_BEHIND_ONE, 52)
of_schedule("K8: two RESETs before it", tree(sequence(LEAF, LEAF, parallel(*RESETS))), Z, "p1 p2 p4",
    "read 0, 1 0 14; size 0, 1025 0; rules 0, 3 0 0: 200 x3; compile 13, 0 0; " + unexamined(13), table_room=65536)
# the most entries that 64 nodes give: 53 STOPs act at each of 1,024 locations, one for each set of RESETs that are left.
# 11 + 53 nodes; 18 + 13 + 1 + 10 * 9 + 53 * 3 + 1,024 + 5 * (53 * 1,024 + 5,120) bytes
WIDEST = tree(parallel(*RESETS, *[STOP] * 53))
of_schedule("the widest table", WIDEST, Z, "p1 p10 p1 p11",
    "read 0, 1 0 64; size 0, 1024 59392; rules 0, 3 1 0: 200 x2 25 202; read table 0, 1 0 63 1024; by table 0, 3 1 0; "
    f"compile 0, 298265 {K8_COMPARED_BESIDE_STOPS}", table_room=298265)
of_schedule("the widest table, a byte too few", WIDEST, Z, "p1", "compile 14, 0 0; " + unexamined(14), table_room=298264)
W = variables((LOWEST, HIGHEST, 0))
of_schedule("K9: negating the lowest", tree(reset(0, neg(var(0))), vs=W), start([LOWEST]), "p0 p0", "rules 0, 0 1 1: 203 23")
of_schedule("K9: negating the next", tree(reset(0, neg(var(0))), vs=W), start([LOWEST + 1]), "p0", "rules 0, 1 0 0: 201")
of_schedule("K9: true or a fault", truth(either(TRUE, FAULT_ABOVE)), Z, "p0", "rules 0, 0 0 1: 203")
of_schedule("false and a fault", truth(both(FALSE, FAULT_ABOVE)), Z, "t", "rules 0, 0 0 1: 203")
of_schedule("a fault or true", truth(either(FAULT_ABOVE, TRUE)), Z, "p0", "rules 0, 0 0 1: 203")
of_schedule("not a fault", truth(no(FAULT_ABOVE)), Z, "p0", "rules 0, 0 0 1: 203")

# what is counted of a run of one event with this answer: taken, turned away, faulted
ONE_EVENT = {n: "1 0 0" for n in (200, 201, 202)} | {n: "0 1 0" for n in range(23, 32)} | {n: "0 0 1" for n in (203, 204)}


def answered(n):
    return f"rules 0, {ONE_EVENT[n]}: {n}"


# results at the borders of 32 bits, in a RESET of a variable with the whole range
for name, n, answer in [
    ("the highest plus 1", add(const(HIGHEST), const(1)), 203),
    ("the highest plus 0", add(const(HIGHEST), const(0)), 201),
    ("the highest plus the highest", add(const(HIGHEST), const(HIGHEST)), 203),
    ("the lowest plus -1", add(const(LOWEST), const(-1)), 204),
    ("the lowest plus the lowest", add(const(LOWEST), const(LOWEST)), 204),
    ("the lowest minus 1", sub(const(LOWEST), const(1)), 204),
    ("the lowest minus the highest", sub(const(LOWEST), const(HIGHEST)), 204),
    ("the highest minus -1", sub(const(HIGHEST), const(-1)), 203),
    ("the highest minus the lowest", sub(const(HIGHEST), const(LOWEST)), 203),
    ("0 minus the lowest", sub(const(0), const(LOWEST)), 203),
    ("-1 minus the highest", sub(const(-1), const(HIGHEST)), 201),
    ("-2 minus the highest", sub(const(-2), const(HIGHEST)), 204),
    ("46341 times itself", mul(const(46341), const(46341)), 203),
    ("46341 times -46341", mul(const(46341), const(-46341)), 204),
    ("-46341 times -46341", mul(const(-46341), const(-46341)), 203),
    ("46340 times itself", mul(const(46340), const(46340)), 201),
    ("65536 times -32768", mul(const(65536), const(-32768)), 201),
    ("65536 times -32769", mul(const(65536), const(-32769)), 204),
    ("65536 times 65536", mul(const(65536), const(65536)), 203),
    ("-65536 times 65536", mul(const(-65536), const(65536)), 204),
    ("65536 times 32768", mul(const(65536), const(32768)), 203),
    ("the lowest times the lowest", mul(const(LOWEST), const(LOWEST)), 203),
    ("the lowest times the highest", mul(const(LOWEST), const(HIGHEST)), 204),
    ("the lowest times -1", mul(const(LOWEST), const(-1)), 203),
    ("the lowest times 2", mul(const(LOWEST), const(2)), 204),
    ("0 times a fault", mul(const(0), TOO_HIGH), 203),
    ("beyond and back", sub(add(const(HIGHEST), const(1)), const(1)), 203),
    ("below and back", add(sub(const(LOWEST), const(1)), const(1)), 204),
]:
    of_schedule(name, tree(reset(0, n), vs=W), Z, "p0", answered(answer))
# comparisons of signed numbers: 1 for true, as pick of a CONTINUE
for name, t, holds in [
    ("-1 <= 1", le(const(-1), const(1)), True),
    ("1 <= -1", le(const(1), const(-1)), False),
    ("-1 <= -1", le(const(-1), const(-1)), True),
    ("the lowest < the highest", lt(const(LOWEST), const(HIGHEST)), True),
    ("the highest < the lowest", lt(const(HIGHEST), const(LOWEST)), False),
    ("2 < 2", lt(const(2), const(2)), False),
    ("-5 = -5", eq(const(-5), const(-5)), True),
    ("-5 = 5", eq(const(-5), const(5)), False),
    ("-5 /= 5", ne(const(-5), const(5)), True),
    ("5 /= 5", ne(const(5), const(5)), False),
    ("true and false", both(TRUE, FALSE), False),
    ("true and true", both(TRUE, TRUE), True),
    ("false or true", either(FALSE, TRUE), True),
    ("false or false", either(FALSE, FALSE), False),
]:
    of_schedule(name, truth(t), Z, "p0", "rules 0, 1 0 0: 201" if holds else "rules 0, 0 1 0: 29")

# Comparisons (document 02, item 4), each target's in the order of the table: the number plus one where it is known, else as many as
# are numbered; FFFE and FFFD add none. No move leads to its own location: the node that moved does not act there.
ONCE_MORE = loop(TRUE, LEAF)
CHOICE = either_of(TRUE, LEAF, LEAF)
for name, t, length, comparisons in [
    ("an IF to two new locations, both halted", either_of(TRUE, STOP, STOP), 60, 1 + 2),
    ("an IF, its branches meet", sequence(CHOICE, LEAF), 87, 1 + 2 + 3 + 4),
    ("an IF, both targets known", parallel(CHOICE, LEAF), 120, 1 + 2 + 3 + 4 + 5 + 5 + 6 + 6 + 7),
    ("a WHILE to two new locations, back to 0", sequence(ONCE_MORE, STOP), 66, 1 + 2 + 1),
    ("a WHILE, back to 1", sequence(LEAF, ONCE_MORE), 72, 1 + 2 + 2),
    ("a WHILE to a new location and to a known one", loop(TRUE, ONCE_MORE), 67, 1 + 2 + 1 + 2),
    ("a WHILE to a known location and to the end", parallel(ONCE_MORE, LEAF), 94, 1 + 2 + 3 + 1 + 4 + 5 + 4),
]:
    of_schedule(f"comparisons: {name}", tree(t), Z, "", f"compile 0, {length} {comparisons}", table_room=length)
    of_schedule(f"14: comparisons: {name}", tree(t), Z, "", "compile 14, 0 0; " + unexamined(14), table_room=length - 1)

# 14: a buffer one byte too short, and just enough
of_schedule("14: K1 with 74 bytes", K1, start([9]), "p1", "read 0, 1 0 3; rules 0, 1 0 0: 200; compile 14, 0 0", table_room=74)
of_schedule("K1 with 75 bytes", K1, start([9]), "p1", "compile 0, 75 1; by table 0, 1 0 0", table_room=75)
of_schedule("14: K1 with none", K1, start([9]), "p1", "compile 14, 0 0", table_room=0)
of_schedule("13 before 14", tree(sequence(LEAF, LEAF, parallel(*RESETS))), Z, "", "compile 13, 0 0; " + unexamined(13), table_room=0)
of_schedule("14 before 20 and 21", K1, start([11]), "x00", "compile 14, 0 0; rules 20, 0 0 0; " + unexamined(14), table_room=74)


# Tables around 65,536 bytes. Ten RESETs and seven STOPs in a PARALLEL: 1,024 locations, each RESET in 512 of them, each STOP in all;
# five bytes an entry. With the plant: 5 + 15 + (2 + E) + 3 + 10 * 9 + 7 * 3 + 6 + 1024 + 5 * (10 * 512 + 7 * 1024) = 62,606 + E,
# where E = 8 and the switches of its one CASE.
def filled(last):
    """224 switches of 13 bytes that are false, and one that makes up the length."""
    es = equations(case(0, mode([], [(0, lt(const(2), const(1)))] * 224 + [(0, last)])))
    return schedule(V, es, parallel(*RESETS, *[STOP] * 7))


EXACT = filled(lt(const(2), var(0)))
OVER = filled(lt(const(2), neg(var(0))))
of_schedule("a table of 65,536 bytes", EXACT, start([0], [0]), "p1 s0.224 s0.225 p17",
    f"size 0, 1024 12288; compile 0, 65536 {K8_COMPARED_BESIDE_STOPS}; read table 0, 1 1 17 1024; by table 0, 2 2 0", table_room=65536)
of_schedule("14: a table of 65,536 bytes in 65,535", EXACT, start([0], [0]), "p1", "compile 14, 0 0", table_room=65535)
of_schedule("14: a table of 65,537 bytes in 65,536", OVER, start([0], [0]), "p1", "compile 14, 0 0", table_room=65536)
of_schedule("a table of 65,537 bytes", OVER, start([0], [0]), "p1 p10 p2",
    f"compile 0, 65537 {K8_COMPARED_BESIDE_STOPS}; read table 0, 1 1 17 1024; by table 0, 3 0 0", table_room=65537)
# ten RESETs and 53 STOPs: 5 + 15 + 3 + 3 + 10 * 9 + 53 * 3 + 6 + 1024 + 5 * (5120 + 53 * 1024)
of_schedule("the longest rows", tree(parallel(*RESETS, *[STOP] * 53)), Z, "p10 p1 p63",
    f"size 0, 1024 59392; compile 0, 298265 {K8_COMPARED_BESIDE_STOPS}; read table 0, 1 0 63 1024", table_room=298265)

# 20, 21, 22
TWO = schedule(variables((-5, 5, 0), (0, 100, 1)), equations(case(0, mode(), mode()), case(0, mode())), LEAF)
for name, begin in [
    ("no start", b""),
    ("a byte too few", start([0, 1], [0])),
    ("a byte too many", start([0, 1], [0, 0, 0])),
    ("a value below its minimum", start([-6, 1], [0, 0])),
    ("a value above its maximum", start([0, 101], [0, 0])),
    ("a mode too high", start([0, 1], [2, 0])),
    ("the last mode too high", start([0, 1], [1, 1])),
]:
    of_schedule(f"20: {name}", TWO, begin, "p0", "read 0, 2 2 1; rules 20, 0 0 0; by table 20, 0 0 0; " + unexamined(20))
of_schedule("20 not: the borders", TWO, start([-5, 100], [1, 0]), "p0", "rules 0, 1 0 0: 201; by table 0, 1 0 0")
of_schedule("20 before 21 and 22", K1, start([11]), "p1 x00", "rules 20, 0 0 0; by table 20, 0 0 0; " + unexamined(20), record_room=0)
of_schedule("12 before 20", number(b""), b"", "x00", "rules 12, 0 0 0", record_room=0)
for k in (1, 2, 4, 5):
    of_schedule(f"21: {k} bytes", K1, start([9]), "x" + "01" * k, "rules 21, 0 0 0; by table 21, 0 0 0; " + unexamined(21))
of_schedule("21 before 22", K1, start([9]), "p1 x00", "rules 21, 0 0 0; by table 21, 0 0 0; " + unexamined(21), record_room=0)
of_schedule("22: one byte too few", K1, start([9]), "p1 p2", "rules 22, 0 0 0; by table 22, 0 0 0; " + unexamined(22), record_room=25)
of_schedule("22 not: just enough", K1, start([9]), "p1 p2", "rules 0, 2 0 0: 200 201; by table 0, 2 0 0", record_room=26)
of_schedule("22: no room", K1, start([9]), "t", "rules 22, 0 0 0; by table 22, 0 0 0; " + unexamined(22), record_room=0)
of_schedule("no events, no room", K1, start([9]), "", "rules 0, 0 0 0; by table 0, 0 0 0; examine 0, 75 0 0 0 0 0 0 1",
    record_room=0, other_room=0)
of_schedule("22 counts what is after the end", K1, start([9]), "p1 p2 t",
    "rules 22, 0 0 0; by table 22, 0 0 0; " + unexamined(22), record_room=38)

# events: 23 to 31 and 204, in a plant with a valve: closed, open, draining
VALVE = case(
    0,
    mode([], [(1, le(var(0), const(1)))]),
    mode([(0, 3), (1, -1)], [(0, le(const(8), var(0))), (2, eq(var(1), const(4))), (1, ne(var(0), var(0)))]),
    mode([(0, -2)]),
)
TANK = variables((0, 10, 5), (0, 9, 9))
FILL = schedule(TANK, equations(VALVE), sequence(switch(0, 1), until(le(const(7), var(0))), switch(0, 2), until(FALSE)))
of_schedule("24: senseless events", FILL, start([5, 9], [0]), "x030000 xFF0000 x000100 x000001 x010101 x01FF01 x030101 p1",
    "rules 0, 1 7 0: 24 x7 200")
of_schedule("24 after 23", tree(STOP), Z, "p0 xFF0000", "rules 0, 1 1 0: 202 23")
of_schedule("25: a SEQUENCE, a later node, none at all", FILL, start([5, 9], [0]), "p0 p2 p5 p63 p64 p255 p1", "rules 0, 1 6 0: 25 x6 200")
of_schedule("26: no selector, no switch", FILL, start([5, 9], [0]), "s1.0 s255.255 s0.1 s0.255 p1 s0.3 s0.2",
    "rules 0, 1 6 0: 26 x4 200 26 30")
of_schedule("27: a tick beside a SWITCH", FILL, start([5, 9], [0]), "t p1 t", "rules 0, 2 1 0: 27 200 x2")
of_schedule("28 and 30: the valve", FILL, start([1, 9], [0]), "p1 s0.0 s0.0 s0.1 p1 t t t p2 s0.0 p2 p2",
    "rules 0, 5 7 0: 28 200 30 x2 200 x3 31 200 30 25 x2")
of_schedule("filled, closed, drained", FILL, start([5, 9], [0]), "p1 p2 t t p2 s0.0 s0.1 p2 t p3 t",
    "rules 0, 6 5 0: 200 29 200 28 x2 200 26 200 27 200 x2")
# a batch of nine ticks, thirty times: 390 events
BATCHES = schedule(V, equations(rate(0, 1)), loop(TRUE, sequence(reinitial(0, const(0)), until(le(const(9), var(0))))))
of_schedule("thirty batches", BATCHES, Z, " ".join(["p0 p2 t t t t t t t t t t p3"] * 30),
    "rules 0, 360 30 0: 200 x11 31" + " 200 x12 31" * 29 + " 200", record_room=6000)
DRAIN = schedule(TANK, equations(VALVE), until(FALSE))
of_schedule("drained to a fault", DRAIN, start([5, 9], [2]), "t t t t", "rules 0, 2 1 1: 200 x2 204 23")
of_schedule("a switch taken, then a fault", DRAIN, start([0, 4], [1]), "s0.0 s0.1 t", "rules 0, 1 1 1: 30 200 204")
of_schedule("no rate in the current mode", DRAIN, start([5, 9], [0]), "t t", "rules 0, 2 0 0: 200 x2")
of_schedule("a switch to its own mode", plant(case(0, mode([], [(0, TRUE)]))), start([0], [0]), "s0.0 s0.0 p0", "rules 0, 2 1 0: 200 x2 28")


# the switch check: it stops at the first that is true or faults
def checked(*cases_, t=LEAF):
    return schedule(V, equations(*cases_), t)


def one(*truths):
    """A CASE of one mode with these switches."""
    return case(0, mode([], [(0, t) for t in truths]))


for name, cs, modes, answer in [
    ("a true switch", [one(FALSE, TRUE)], [0], 28),
    ("a fault in the check", [one(FALSE, FAULT_ABOVE)], [0], 203),
    ("true, then a fault", [one(TRUE, FAULT_ABOVE)], [0], 28),
    ("a fault, then true", [one(FAULT_ABOVE, TRUE)], [0], 203),
    ("the second selector's is true", [one(FALSE), one(TRUE)], [0, 0], 28),
    ("true in the first selector, a fault in the second", [one(TRUE), one(FAULT_ABOVE)], [0, 0], 28),
    ("a fault in the first selector, true in the second", [one(FAULT_ABOVE), one(TRUE)], [0, 0], 203),
    ("a fault in a mode that is not current", [case(0, mode([], [(0, FAULT_ABOVE)]), mode([], [(0, FALSE)]))], [1], 0),
]:
    for kind, t, e, good in [
        ("RESET", LEAF, "p0", 201),
        ("STOP", STOP, "p0", 202),
        ("a false CONTINUE", until(FALSE), "t", 200),
        ("a true WHILE", loop(TRUE, STOP), "p0", 200),
    ]:
        of_schedule(f"{name}: {kind}", checked(*cs, t=t), start([0], modes), e, answered(answer or good))
of_schedule("a fault in the check is before 29", checked(one(FAULT_ABOVE), t=until(FALSE)), start([0], [0]), "p0", "rules 0, 0 0 1: 203")
of_schedule("28 is before 29", checked(one(TRUE), t=until(FALSE)), start([0], [0]), "p0", "rules 0, 0 1 0: 28")
of_schedule("28 is before 31", checked(one(TRUE), t=until(TRUE)), start([0], [0]), "t", "rules 0, 0 1 0: 28")
of_schedule("27 is before the check", checked(one(FAULT_ABOVE)), start([0], [0]), "t p5", "rules 0, 0 2 0: 27 25")
of_schedule("a switch event makes no check", checked(one(FAULT_ABOVE, FALSE, TRUE)), start([0], [0]), "s0.1 s0.2 s0.3 s0.0 s0.2",
    "rules 0, 1 3 1: 30 200 26 203 23")
of_schedule("a SWITCH passes the check", checked(case(0, mode(), mode([], [(0, TRUE)])), t=sequence(switch(0, 1), switch(0, 0))),
    start([0], [0]), "p1 p2 s0.0 p2",
    "rules 0, 3 1 0: 200 28 200 201")

# a tick's walk over the CONTINUE truths, and its rates
for name, ts, answer in [
    ("all false", [FALSE, FALSE], 200),
    ("true, then a fault", [TRUE, FAULT_ABOVE], 31),
    ("a fault, then true", [FAULT_ABOVE, TRUE], 203),
    ("false, then a fault", [FALSE, FAULT_ABOVE], 203),
    ("false, then true", [FALSE, TRUE], 31),
]:
    of_schedule(f"a tick's truths: {name}", tree(parallel(*map(until, ts))), Z, "t", answered(answer))
of_schedule("27: a CONTINUE and a RESET", tree(parallel(until(TRUE), LEAF)), Z, "t p2 t", "rules 0, 1 2 0: 27 200 31")
of_schedule("a pick of a CONTINUE that faults", truth(FAULT_ABOVE), Z, "p0", "rules 0, 0 0 1: 203")
of_schedule("a WHILE that faults", tree(loop(FAULT_ABOVE, LEAF)), Z, "p0", "rules 0, 0 0 1: 203")
of_schedule("an IF that faults", tree(either_of(FAULT_ABOVE, LEAF, LEAF)), Z, "p0 p1", "rules 0, 0 1 1: 203 23")
of_schedule("a RESET below the range", number(const(-1)), start([5]), "p0", "rules 0, 0 0 1: 204")
of_schedule("a RESET above the range", number(const(11)), start([5]), "p0", "rules 0, 0 0 1: 203")
of_schedule("a REINITIAL at the border", tree(reinitial(0, const(10)), equations(rate(0, 1))), start([5]), "p0", "rules 0, 1 0 0: 201")
WAITING = until(FALSE)
of_schedule("a tick past the highest number", schedule(W, equations(rate(0, 1)), WAITING), start([HIGHEST - 1]), "t t t",
    "rules 0, 1 1 1: 200 203 23")
of_schedule("a tick past the lowest number", schedule(W, equations(rate(0, LOWEST)), WAITING), start([-1]), "t", "rules 0, 0 0 1: 204")
of_schedule("a tick to the lowest number", schedule(W, equations(rate(0, LOWEST)), WAITING), start([0]), "t t", "rules 0, 1 0 1: 200 204")
THREE_RATES = schedule(variables(*[(0, 10, 0)] * 3), equations(rate(2, 4), rate(0, 1), rate(1, -3)), WAITING)
of_schedule("a tick that one variable faults", THREE_RATES, start([1, 5, 1]), "t t t",
    "rules 0, 1 1 1: 200 204 23")
of_schedule("a tick with a rate of 0", schedule(V, equations(rate(0, 0)), WAITING), start([10]), "t t", "rules 0, 2 0 0: 200 x2")

# Above or below (document 02, item 2): 203 is above, 204 is below. A number is assigned to a variable with the whole range.
SIDES = [("above", TOO_HIGH, FAULT_ABOVE, 203), ("below", TOO_LOW, FAULT_BELOW, 204)]


def assigned(n):
    return tree(reset(0, n), vs=W)


# two operands: the left one's side where the left faults, else the right one's
for name, form, fine, high, low, put in [
    ("a sum", add, ("0", const(0)), TOO_HIGH, TOO_LOW, assigned),
    ("a difference", sub, ("0", const(0)), TOO_HIGH, TOO_LOW, assigned),
    ("a product", mul, ("0", const(0)), TOO_HIGH, TOO_LOW, assigned),
    ("<=", le, ("0", const(0)), TOO_HIGH, TOO_LOW, truth),
    ("<", lt, ("0", const(0)), TOO_HIGH, TOO_LOW, truth),
    ("=", eq, ("0", const(0)), TOO_HIGH, TOO_LOW, truth),
    ("/=", ne, ("0", const(0)), TOO_HIGH, TOO_LOW, truth),
    ("and", both, ("false", FALSE), FAULT_ABOVE, FAULT_BELOW, truth),
    ("or", either, ("true", TRUE), FAULT_ABOVE, FAULT_BELOW, truth),
]:
    above, below = ("above", high), ("below", low)
    for left, right, answer in [
        (above, below, 203),
        (below, above, 204),
        (above, fine, 203),
        (below, fine, 204),
        (fine, above, 203),
        (fine, below, 204),
    ]:
        of_schedule(f"{name}: {left[0]}, then {right[0]}", put(form(left[1], right[1])), Z, "p0", answered(answer))
# the side of a fault stays what it is in the forms over it
for name, n, answer in [
    ("a negation of what is above", neg(TOO_HIGH), 203),
    ("a negation of what is below", neg(TOO_LOW), 204),
    ("-1 times what is above", mul(const(-1), TOO_HIGH), 203),
    ("-1 times what is below", mul(const(-1), TOO_LOW), 204),
    ("below on the right of the left operand, above on the right", add(add(const(0), TOO_LOW), TOO_HIGH), 204),
    ("above on the right of the left operand, below on the right", mul(sub(const(0), TOO_HIGH), TOO_LOW), 203),
    ("below on the left of the right operand, above behind it", sub(const(0), add(TOO_LOW, TOO_HIGH)), 204),
    ("above on the left of the right operand, below behind it", add(const(0), sub(TOO_HIGH, TOO_LOW)), 203),
    ("below at depth 16, above on the right", add(negs(13, TOO_LOW), TOO_HIGH), 204),
]:
    of_schedule(name, assigned(n), Z, "p0", answered(answer))
for name, t, answer in [
    ("not what is below", no(FAULT_BELOW), 204),
    ("below in the second comparison, above behind it", both(either(TRUE, FAULT_BELOW), FAULT_ABOVE), 204),
    ("above in the second comparison, below behind it", either(both(FALSE, FAULT_ABOVE), FAULT_BELOW), 203),
]:
    of_schedule(name, truth(t), Z, "p0", answered(answer))
# the same form on either side, by the values
TWO_WHOLE = variables((LOWEST, HIGHEST, 0), (LOWEST, HIGHEST, 0))
for name, form, high, low in [
    ("a sum of variables", add(var(0), var(1)), [HIGHEST, 1], [LOWEST, -1]),
    ("a difference of variables", sub(var(0), var(1)), [HIGHEST, -1], [LOWEST, 1]),
    ("a product of variables", mul(var(0), var(1)), [LOWEST, -1], [LOWEST, 2]),
]:
    for side, begin, answer in [("above", high, 203), ("below", low, 204)]:
        of_schedule(f"{name} {side}", tree(reset(0, form), vs=TWO_WHOLE), start(begin), "p0", answered(answer))
for side, _, t, answer in SIDES:
    for name, file, es in [
        ("a pick of a CONTINUE", truth(t), "p0"),
        ("a pick of a WHILE", tree(loop(t, LEAF)), "p0"),
        ("a pick of an IF", tree(either_of(t, LEAF, STOP)), "p0"),
        ("a tick over a CONTINUE", truth(t), "t"),
    ]:
        of_schedule(f"{name}, its truth {side}", file, Z, es, answered(answer))

# assignments: evaluation first, by 32 bits, then the declared range
for name, place, es in [("RESET", reset, NO_EQUATION), ("REINITIAL", reinitial, equations(rate(0, 1)))]:
    for what, declared, n, answer in [
        ("one below its range", (0, 10, 5), const(-1), 204),
        ("one above its range", (0, 10, 5), const(11), 203),
        ("to the lowest number", (0, 10, 5), const(LOWEST), 204),
        ("to the highest number", (0, 10, 5), const(HIGHEST), 203),
        ("below a range of negative numbers", (-20, -10, -15), const(-21), 204),
        ("above a range of negative numbers", (-20, -10, -15), const(-9), 203),
        ("above 32 bits, all of its range negative", (-20, -10, -15), TOO_HIGH, 203),
        ("below 32 bits, all of its range positive", (10, 20, 15), TOO_LOW, 204),
        ("above 32 bits on the way to a number below its range", (5, 10, 5), sub(TOO_HIGH, const(HIGHEST)), 203),
        ("below 32 bits on the way to a number above its range", (-10, -5, -5), add(TOO_LOW, const(HIGHEST)), 204),
    ]:
        of_schedule(f"a {name} {what}", tree(place(0, n), es, variables(declared)), start([declared[2]]), "p0", answered(answer))
# 50 is above the range of variable 1 and below that of 0; -50 is below the range of 1 and above that of 2
APART = variables((100, 200, 100), (0, 10, 5), (-200, -100, -100))
of_schedule("a RESET above the range of variable 1", tree(reset(1, const(50)), vs=APART), start([100, 5, -100]), "p0", answered(203))
of_schedule("a RESET below the range of variable 1", tree(reset(1, const(-50)), vs=APART), start([100, 5, -100]), "p0", answered(204))

# ticks: the lowest variable number out of range decides
def ticked(name, vs, es, begin, answer):
    of_schedule(f"a tick: {name}", schedule(vs, equations(*es), WAITING), begin, "t", answered(answer))


for name, first, second, answer in [("0 below, 1 above", -6, 6, 204), ("0 above, 1 below", 6, -6, 203)]:
    for how, es, modes in [
        ("two rates", [rate(0, first), rate(1, second)], []),
        ("two rates, 1 listed first", [rate(1, second), rate(0, first)], []),
        ("one mode", [case(0, mode([(0, first), (1, second)]))], [0]),
        ("one mode, 1 listed first", [case(0, mode([(1, second), (0, first)]))], [0]),
        ("two CASEs", [case(0, mode([(0, first)])), case(0, mode([(1, second)]))], [0, 0]),
        ("two CASEs, 1 listed first", [case(0, mode([(1, second)])), case(0, mode([(0, first)]))], [0, 0]),
        ("a rate of 1, then a CASE", [rate(1, second), case(0, mode([(0, first)]))], [0]),
        ("a CASE of 1, then a rate", [case(0, mode([(1, second)])), rate(0, first)], [0]),
        ("another mode is current", [case(0, mode([(0, second)]), mode([(0, first)])), rate(1, second)], [1]),
    ]:
        ticked(f"{name}, {how}", variables(*[(0, 10, 5)] * 2), es, start([5, 5], modes), answer)
FIVES, FIVE = variables(*[(0, 10, 5)] * 5), start([5] * 5)
ticked("variable 3 of 5 below", FIVES, [rate(4, 1), rate(2, -1), rate(0, 2), rate(3, -6), rate(1, 5)], FIVE, 204)
ticked("variable 3 of 5 above", FIVES, [rate(4, 1), rate(2, -1), rate(0, 2), rate(3, 6), rate(1, 5)], FIVE, 203)
ticked("1 above, 3 and 4 of 5 below", FIVES, [rate(4, -6), rate(3, -6), rate(1, 6), rate(0, 1)], FIVE, 203)
ticked("2 below, 3 and 4 of 5 above", FIVES, [rate(3, 6), rate(4, 6), rate(2, -6), rate(0, -1)], FIVE, 204)
MANY, MANY_FIVES = variables(*[(0, 10, 5)] * 32), start([5] * 32, [0])
ticked("0 of 32 below, all others above", MANY, [case(0, mode([(v, 6) for v in range(31, 0, -1)] + [(0, -6)]))], MANY_FIVES, 204)
ticked("0 of 32 above, all others below", MANY, [case(0, mode([(v, -6) for v in range(31, 0, -1)] + [(0, 6)]))], MANY_FIVES, 203)
ticked("the last of 32 below", MANY, [case(0, mode([(v, -6 if v == 31 else 1) for v in range(32)]))], MANY_FIVES, 204)
ticked("the last of 32 above", MANY, [case(0, mode([(v, 6 if v == 31 else -1) for v in range(32)]))], MANY_FIVES, 203)
# a sum that leaves 32 bits is outside its declared range on that side
ticked("above 32 bits, one range at the top", variables((HIGHEST - 5, HIGHEST, HIGHEST)), [rate(0, 10)], start([HIGHEST]), 203)
ticked("below 32 bits, one range at the bottom", variables((LOWEST, LOWEST + 5, LOWEST)), [rate(0, -10)], start([LOWEST]), 204)
ticked("the highest twice, no negative number in its range", variables((1, HIGHEST, 1)), [rate(0, HIGHEST)], start([HIGHEST]), 203)
ticked("the lowest twice, only negative numbers in its range", variables((LOWEST, -1, -1)), [rate(0, LOWEST)], start([LOWEST]), 204)
ticked("above a range of negative numbers", variables((-20, -10, -15)), [rate(0, 1)], start([-10]), 203)
ticked("below a range of positive numbers", variables((10, 20, 15)), [rate(0, -1)], start([10]), 204)
NARROW_WHOLE = variables((0, 10, 5), (LOWEST, HIGHEST, 0))
WHOLE_NARROW = variables((LOWEST, HIGHEST, 0), (0, 10, 5))
ticked("0 below its range, 1 above 32 bits", NARROW_WHOLE, [rate(1, 1), rate(0, -6)], start([5, HIGHEST]), 204)
ticked("0 above its range, 1 below 32 bits", NARROW_WHOLE, [rate(1, -1), rate(0, 6)], start([5, LOWEST]), 203)
ticked("0 below 32 bits, 1 above its range", WHOLE_NARROW, [rate(1, 6), rate(0, -1)], start([LOWEST, 5]), 204)
ticked("0 above 32 bits, 1 below its range", WHOLE_NARROW, [rate(1, -6), rate(0, 1)], start([HIGHEST, 5]), 203)

# the switch check's fault comes before what 28, 29 and 31 are for and before any later fault
for (side, _, t, answer), (other, other_number, other_truth, _) in zip(SIDES, SIDES[::-1]):
    for name, cs, node_, e in [
        ("28, by a pick", [one(t, TRUE)], LEAF, "p0"),
        ("28, by a tick", [one(FALSE, t, TRUE)], until(FALSE), "t"),
        ("28 of the next selector, by a pick", [one(FALSE, t), one(TRUE)], STOP, "p0"),
        ("28 of the next selector, by a tick", [one(t), one(TRUE)], until(FALSE), "t"),
        ("29", [one(t)], until(FALSE), "p0"),
        ("31", [one(t)], until(TRUE), "t"),
        (f"{other} of the next switch, by a pick", [one(t, other_truth)], LEAF, "p0"),
        (f"{other} of the next switch, by a tick", [one(t, other_truth)], until(FALSE), "t"),
        (f"{other} of the next selector, by a pick", [one(t), one(other_truth)], LEAF, "p0"),
        (f"{other} of the next selector, by a tick", [one(FALSE, t), one(other_truth)], until(FALSE), "t"),
        (f"{other} of the number", [one(t)], reset(0, other_number), "p0"),
        (f"{other} of a picked truth", [one(t)], until(other_truth), "p0"),
        (f"{other} of a tick's truth", [one(t)], until(other_truth), "t"),
    ]:
        of_schedule(f"{side} in the check comes before {name}", checked(*cs, t=node_), start([0], [0] * len(cs)), e, answered(answer))
    # the rate leads to the other side
    cs = [one(t), rate(0, 11 if answer == 204 else -1)]
    of_schedule(f"{side} in the check comes before {other} of a rate", checked(*cs, t=WAITING), start([0], [0]), "t", answered(answer))
    cs = [case(0, mode([], [(0, other_truth)]), mode([], [(0, t)]))]
    of_schedule(f"{side} in the check of the current mode", checked(*cs), start([0], [1]), "p0", answered(answer))

# a tick's walk over the CONTINUE truths: its first fault gives the side
for name, ts, answer in [
    ("below, then above", [FAULT_BELOW, FAULT_ABOVE], 204),
    ("above, then below", [FAULT_ABOVE, FAULT_BELOW], 203),
    ("false, below, then above", [FALSE, FAULT_BELOW, FAULT_ABOVE], 204),
    ("false, above, then below", [FALSE, FAULT_ABOVE, FAULT_BELOW], 203),
    ("below, then true", [FAULT_BELOW, TRUE], 204),
    ("true, then below", [TRUE, FAULT_BELOW], 31),
]:
    of_schedule(f"a tick's truths: {name}", tree(parallel(*map(until, ts))), Z, "t", answered(answer))
of_schedule("a tick's truths: below in a PARALLEL, then above", tree(parallel(parallel(WAITING, until(FAULT_BELOW)), until(FAULT_ABOVE))),
    Z, "t", answered(204))
of_schedule("a tick's truths: below, then a rate above", schedule(V, equations(rate(0, 11)), until(FAULT_BELOW)), Z, "t", answered(204))
of_schedule("a tick's truths: above, then a rate below", schedule(V, equations(rate(0, -1)), until(FAULT_ABOVE)), Z, "t", answered(203))
BOTH_SIDES = tree(parallel(until(FAULT_BELOW), until(FAULT_ABOVE)))
of_schedule("a pick of the CONTINUE below", BOTH_SIDES, Z, "p1", answered(204))
of_schedule("a pick of the CONTINUE above", BOTH_SIDES, Z, "p2", answered(203))

# switch events: their own truth alone
BOTH_SWITCHES = checked(one(FAULT_BELOW, FAULT_ABOVE, FALSE), one(FAULT_ABOVE, FAULT_BELOW))
for es, says in [
    ("s0.0", answered(204)),
    ("s0.1", answered(203)),
    ("s1.0", answered(203)),
    ("s1.1", answered(204)),
    ("s0.2 s0.0 s0.2", "rules 0, 0 2 1: 30 204 23"),
]:
    of_schedule(f"a switch event that faults: {es}", BOTH_SWITCHES, start([0], [0, 0]), es, says)

# after 204: no node acts, values and modes are those before the event, and all that follows is 23
SINKING = case(0, mode([(0, -2)], [(1, TRUE)]), mode([(0, -2), (1, 1)]))
of_schedule("after a tick below", schedule(variables((0, 10, 5), (-5, 5, 0)), equations(SINKING), WAITING), start([5, 0], [0]),
    "t s0.0 t t t t p0 s0.0 x030000",
    "rules 0, 3 5 1: 28 200 x3 204 23 x4; by table 0, 3 5 1: 28 200 x3 204 23 x4; examine 0, 82 3 5 1 3 5 1 1; records = "
    "1C 0000000000000001 00000005 00000000 00 C8 0000000000000001 00000005 00000000 01"
    "C8 0000000000000001 00000003 00000001 01 C8 0000000000000001 00000001 00000002 01"
    "CC 0000000000000000 00000001 00000002 01" + "17 0000000000000000 00000001 00000002 01" * 4)
LOWERED = tree(sequence(reset(0, const(7)), reset(0, sub(var(0), const(8)))))
of_schedule("after a RESET below", LOWERED, Z, "p1 p2 p2 t",
    "rules 0, 1 2 1: 200 204 23 x2; by table 0, 1 2 1: 200 204 23 x2; examine 0, 65 1 2 1 1 2 1 1; records = "
    "C8 0000000000000004 00000007 CC 0000000000000000 00000007" + "17 0000000000000000 00000007" * 2)
of_schedule("after a switch event below", checked(case(0, mode([], [(1, TRUE)]), mode([], [(0, FAULT_BELOW)]))), start([3], [0]),
    "s0.0 s0.0 s0.0 p0",
    "rules 0, 1 2 1: 200 204 23 x2; by table 0, 1 2 1: 200 204 23 x2; records = "
    "C8 0000000000000001 00000003 01 CC 0000000000000000 00000003 01" + "17 0000000000000000 00000003 01" * 2)
of_schedule("after a check below", checked(case(0, mode([], [(1, TRUE)]), mode([], [(0, FAULT_BELOW)])), t=switch(0, 0)), start([3], [0]),
    "p0 s0.0 p0 p0",
    "rules 0, 1 2 1: 28 200 204 23; by table 0, 1 2 1: 28 200 204 23; records = "
    "1C 0000000000000001 00000003 00 C8 0000000000000001 00000003 01 CC 0000000000000000 00000003 01 17 0000000000000000 00000003 01")

# trees
of_schedule("an IF that is true", tree(either_of(lt(var(0), const(5)), STOP, LEAF)), start([4]), "p1 p2 p0 p2 p1",
    "rules 0, 2 3 0: 25 x2 200 25 202; read table 0, 1 0 3 3")
of_schedule("an IF that is false", tree(either_of(lt(var(0), const(5)), STOP, LEAF)), start([5]), "p0 p1 p2", "rules 0, 2 1 0: 200 25 201")
of_schedule("a WHILE that is false", tree(loop(FALSE, LEAF)), Z, "p0 p1", "rules 0, 1 1 0: 201 23; read table 0, 1 0 2 2")
of_schedule("a STOP in a branch ends the whole", tree(parallel(sequence(LEAF, STOP), until(FALSE))), Z, "p2 p4 p3 t",
    "rules 0, 2 2 0: 200 29 202 23")
of_schedule("a STOP that is never reached", tree(sequence(until(FALSE), STOP)), Z, "t p2", "rules 0, 1 1 0: 200 25; read table 0, 1 0 2 2")
AGAIN = loop(lt(var(0), const(9)), parallel(reset(0, add(var(0), const(1))), reset(0, add(var(0), const(4)))))
of_schedule("a WHILE over a PARALLEL", tree(AGAIN), Z, "p0 p3 p2 p0 p2 p2 p3 p0 p1",
    "rules 0, 7 2 0: 200 x5 25 200 201 23; read table 0, 1 0 3 4")
of_schedule("a PARALLEL of SEQUENCEs", tree(parallel(sequence(LEAF, LEAF), sequence(LEAF, LEAF))), Z, "p2 p5 p3 p3 p6",
    "rules 0, 4 1 0: 200 x3 25 201; read table 0, 1 0 4 8")
of_schedule("PARALLELs one in the other", tree(parallel(parallel(LEAF, parallel(LEAF, LEAF)), LEAF)), Z, "p5 p4 p2 p4 p6",
    "rules 0, 4 1 0: 200 x3 25 201; read table 0, 1 0 4 15")
BRANCH = either_of(eq(var(0), const(1)), sequence(LEAF, reset(0, const(3))), reset(0, const(1)))
of_schedule("an IF in a WHILE in a SEQUENCE", tree(sequence(loop(le(var(0), const(2)), BRANCH), STOP)), Z, "p1 p2 p6 p1 p2 p4 p5 p1 p7",
    "rules 0, 9 0 0: 200 x8 202")


# RESET belongs to variables that no equation drives, REINITIAL to driven ones (document 02, item 3); 34 otherwise.
# What drives variable 0, with the modes of a start
AFTER = case(0, mode(), mode([(0, 1)]))
for name, es, modes in [
    ("a rate", [rate(0, 1)], []),
    ("a rate of 0", [rate(0, 0)], []),
    ("a rate of -1", [rate(0, -1)], []),
    ("the lowest rate", [rate(0, LOWEST)], []),
    ("the initial mode", [case(0, mode([(0, 1)]), mode())], [1]),
    ("a mode that is not the initial one", [AFTER], [0]),
    ("the mode before the initial one", [case(1, mode([(0, 1)]), mode())], [1]),
    ("a rate of 0 in a mode that is not the initial one", [case(0, mode(), mode([(0, 0)]))], [0]),
    ("a rate of -1 in the initial mode", [case(0, mode([(0, -1)]), mode())], [0]),
    ("a rate of -1 in a mode that is not the initial one", [case(0, mode(), mode([(0, -1)]))], [0]),
    ("rates of -1 and -2 in two modes", [case(0, mode([(0, -1)]), mode([(0, -2)]))], [1]),
    ("two modes of one CASE", [case(0, mode([(0, 1)]), mode([(0, 2)]))], [1]),
    ("the last of 8 modes", [case(0, *[mode()] * 7, mode([(0, 1)]))], [0]),
    ("the second CASE", [ONE_MODE, AFTER], [0, 0]),
    ("the first of 16 equations", [rate(0, 1)] + [ONE_MODE] * 15, [0] * 15),
    ("the last of 16 equations", [ONE_MODE] * 15 + [AFTER], [0] * 16),
]:
    begin = start([0], modes)
    refused(34, f"RESET of what is driven by {name}", plant(*es), begin)
    of_schedule(f"REINITIAL of what is driven by {name}", with_reinitial(*es), begin, "p0",
        f"read 0, 1 {len(modes)} 1; size 0, 1 1; rules 0, 1 0 0: 201; by table 0, 1 0 0: 201")
# what drives nothing
for name, es, modes in [
    ("no equation", [], []),
    ("a CASE without a rate", [case(0, mode(), mode())], [0]),
    ("the truth of a switch", [one(lt(var(0), const(0)))], [0]),
    ("the truth of a switch in another mode", [case(0, mode(), mode([], [(0, eq(var(0), var(0)))]))], [0]),
]:
    begin = start([0], modes)
    refused(34, f"REINITIAL of what stands in {name}", with_reinitial(*es), begin)
    of_schedule(f"RESET of what stands in {name}", plant(*es), begin, "p0",
        f"read 0, 1 {len(modes)} 1; size 0, 1 1; rules 0, 1 0 0: 201; by table 0, 1 0 0: 201")
PAIR = variables(*[(0, 10, 0)] * 2)
ZERO = le(const(0), var(0))
refused(34, "REINITIAL of what stands in the truth of a CONTINUE alone", tree(sequence(until(ZERO), REINITIAL_LEAF)), es="p1")
refused(34, "REINITIAL of what stands in the truths of a WHILE and an IF alone", tree(loop(ZERO, either_of(ZERO, REINITIAL_LEAF, STOP))))
refused(34, "REINITIAL of what stands in its own number alone", tree(reinitial(0, add(var(0), const(1)))))
refused(34, "REINITIAL of what stands in the number of a driven one alone",
    tree(sequence(reinitial(1, var(0)), REINITIAL_LEAF), equations(rate(1, 1)), PAIR), start([0, 0]), "p1")
# other variables, and which of them
refused(34, "RESET of 0, 0 of 2 driven", tree(reset(0, var(1)), equations(rate(0, 1)), PAIR), start([0, 0]))
refused(34, "RESET of 1, 1 of 2 driven", tree(reset(1, var(0)), equations(rate(1, 1)), PAIR), start([0, 0]))
refused(34, "REINITIAL of 0, 1 of 2 driven", tree(reinitial(0, var(1)), equations(rate(1, 1)), PAIR), start([0, 0]))
refused(34, "REINITIAL of 1, 0 of 2 driven", tree(reinitial(1, var(0)), equations(rate(0, 1)), PAIR), start([0, 0]))
refused(34, "REINITIAL of 1, where mode 1 drives 0", tree(reinitial(1, const(1)), equations(AFTER), PAIR), start([0, 0], [1]))
refused(34, "RESET of a mode's second rate", tree(reset(1, const(1)), equations(case(0, mode([(0, 1), (1, 1)]))), PAIR), start([0, 0], [0]))
of_schedule("RESET of 1 and REINITIAL of 0, 0 of 2 driven", tree(sequence(reset(1, const(2)), REINITIAL_LEAF), equations(rate(0, 1)), PAIR),
    start([0, 0]), "p1 p2", "rules 0, 2 0 0: 200 201; by table 0, 2 0 0: 200 201; "
    "records = C8 0000000000000004 00000000 00000002 C9 0000000000000000 00000001 00000002")
MANY_ZEROS = variables(*[(0, 10, 0)] * 32)
LAST_DRIVEN, LAST_FREE = case(0, mode(), mode([(31, 1)])), case(0, mode(), mode([(v, 1) for v in range(31)]))
ZEROS = start([0] * 32, [0])
refused(34, "RESET of variable 31 of 32, it alone driven", tree(reset(31, const(1)), equations(LAST_DRIVEN), MANY_ZEROS), ZEROS)
refused(34, "REINITIAL of variable 31 of 32, all others driven", tree(reinitial(31, const(1)), equations(LAST_FREE), MANY_ZEROS), ZEROS)
of_schedule("REINITIAL of variable 31 of 32, it alone driven", tree(reinitial(31, const(1)), equations(LAST_DRIVEN), MANY_ZEROS), ZEROS,
    "p0", "read 0, 32 1 1; rules 0, 1 0 0: 201; by table 0, 1 0 0: 201")
of_schedule("RESET of variable 31 of 32, all others driven", tree(reset(31, const(1)), equations(LAST_FREE), MANY_ZEROS), ZEROS, "p0",
    "read 0, 32 1 1; rules 0, 1 0 0: 201; by table 0, 1 0 0: 201")
# a variable that is missing though 32 are declared: 11, before and behind a node that breaks the rule
for name, es, wrong in [("RESET", LAST_DRIVEN, reset(31, const(1))), ("REINITIAL", LAST_FREE, reinitial(31, const(1)))]:
    for v in (32, 255):
        for what, missing in [("RESET", reset(v, const(1))), ("REINITIAL", reinitial(v, const(1)))]:
            for where, two in [("behind", [wrong, missing]), ("before", [missing, wrong])]:
                refused(11, f"{what} of variable {v} of 32 {where} 34 of a {name}", tree(sequence(*two), equations(es), MANY_ZEROS), ZEROS)

# two nodes that break the rule, of either direction and of both
RESETS, REINITIALS = [reset(0, const(1)), reset(1, const(1))], [reinitial(0, const(1)), reinitial(1, const(1))]
FIRST, SECOND, EACH = equations(rate(0, 1)), equations(rate(1, 1)), equations(rate(0, 1), rate(1, 1))
for name, es, two in [
    ("RESET of the driven one, then REINITIAL of the other", FIRST, [RESETS[0], REINITIALS[1]]),
    ("REINITIAL of the one not driven, then RESET of the other", FIRST, [REINITIALS[1], RESETS[0]]),
    ("RESET of 1 and REINITIAL of 0, 1 driven", SECOND, [RESETS[1], REINITIALS[0]]),
    ("REINITIAL of 0 and RESET of 1, 1 driven", SECOND, [REINITIALS[0], RESETS[1]]),
    ("two RESETs of one driven", FIRST, [RESETS[0]] * 2),
    ("two RESETs, both variables driven", EACH, RESETS),
    ("two REINITIALs of one not driven", FIRST, [REINITIALS[1]] * 2),
    ("two REINITIALs, neither variable driven", NO_EQUATION, REINITIALS),
]:
    refused(34, f"{name}, in a SEQUENCE", tree(sequence(*two), es, PAIR), start([0, 0]), "p1")
    refused(34, f"{name}, in a PARALLEL", tree(parallel(*two), es, PAIR), start([0, 0]), "p1")

# 34 in either direction: the plant, the assignment that keeps the rule, and the kind that breaks it
for name, es, good, bad in [("RESET", equations(rate(0, 1)), REINITIAL_LEAF, reset), ("REINITIAL", NO_EQUATION, LEAF, reinitial)]:
    wrong = bad(0, const(1))
    # each node, reached or not
    for where, t in [
        ("behind a STOP", sequence(STOP, wrong)),
        ("in a WHILE that is false", loop(FALSE, wrong)),
        ("in the first branch of an IF that is false", either_of(FALSE, wrong, STOP)),
        ("in the second branch of an IF that is true", either_of(TRUE, STOP, wrong)),
        ("in the first of three branches", parallel(wrong, good, good)),
        ("in the last of three branches", parallel(good, good, wrong)),
        ("at node 63", sequence(*[good] * 62, wrong)),
    ]:
        refused(34, f"{name} {where}", tree(t, es), es="p1")
    # any 9, 10 or 11 comes before it
    refused(9, f"9 before 34 of a {name}", file_of(V, es, nodes(wrong + node(10))))
    refused(10, f"10 before 34 of a {name}", tree(wrong + STOP, es))
    for what, missing in [("RESET", reset(1, const(1))), ("REINITIAL", reinitial(1, const(1))), ("SWITCH", switch(0, 0))]:
        refused(11, f"{what} at a later node than 34 of a {name}", tree(sequence(wrong, good, missing), es))
        refused(11, f"{what} at an earlier node than 34 of a {name}", tree(sequence(missing, good, wrong), es))
    # it comes before any 12
    for what, t in [
        ("its own, no number", bad(0, b"")),
        ("its own, a truth", bad(0, TRUE)),
        ("its own, a missing variable", bad(0, var(1))),
        ("its own, of depth 17", bad(0, negs(16, var(0)))),
        ("an earlier CONTINUE's", sequence(until(b""), wrong)),
        ("an earlier assignment's", sequence(node(good[0][0], b"\x00"), wrong)),
        ("a later IF's", sequence(wrong, either_of(const(1), STOP, STOP))),
        ("a later CONTINUE's", sequence(wrong, good, until(b""))),
        ("a later assignment's", sequence(wrong, node(good[0][0], b"\x00"))),
        ("a later WHILE's, and its own", sequence(bad(0, TRUE), loop(var(0), STOP))),
        ("the WHILE's around it", loop(var(1), wrong)),
    ]:
        refused(34, f"{name} before 12, {what}", tree(t, es), es="p1")
    # before 13, 14, and 20 to 22
    refused(34, f"{name} before 13", tree(sequence(good, good, parallel(*[good] * 9, wrong)), es))
    of_schedule(f"34: {name} before 14, 20, 21 and 22", tree(wrong, es), b"", "x00",
        "read 34, 0 0 0; size 34, 0 0; compile 34, 0 0; rules 34, 0 0 0; " + unexamined(34), table_room=0, record_room=0)
BROKEN = case(0, mode([], [(0, const(1))]), mode([(0, 1)], [(0, b"")]))
refused(34, "RESET before 12, a switch's", plant(BROKEN), start([0], [0]))
refused(34, "REINITIAL before 12, a switch's", with_reinitial(one(TRUE, TRUE + TRUE)), start([0], [0]))
refused(12, "a switch's, where a REINITIAL keeps the rule", with_reinitial(BROKEN), start([0], [0]))
refused(8, "8 before 34: RESET of what two equations drive", plant(rate(0, 1), rate(0, 1)))
refused(7, "7 before 34: REINITIAL, a rate of a missing variable", with_reinitial(rate(1, 1)))
refused(34, "K1 with a RESET at node 1", changed(K1, K1.index(b"\x0A\x07") + 1, 6), es="p1")
refused(34, "K1 with a rate of a second variable in place of the first's",
    tree(sequence(reinitial(0, add(var(0), const(1))), until(le(const(3), var(0)))), equations(rate(1, 1)), PAIR), start([0, 0]), "p1")


# Tables: 15 to 19
def refused_table(n, name, table, begin=Z, es="p0"):
    of_table(f"{n}: {name}", table, begin, es, f"read table {n}, 0 0 0 0; by table {n}, 0 0 0")


refused_table(15, "empty table", b"")
refused_table(15, "four bytes", b"\x01\x00\x00\x00")
refused_table(15, "version 2", changed(K1_TABLE, 0, 2))
refused_table(15, "length one less", changed(K1_TABLE, 4, 74))
refused_table(15, "length one more", changed(K1_TABLE, 4, 76))
refused_table(15, "the length's upper byte", changed(K1_TABLE, 1, 1))
refused_table(15, "a schedule for a table", K1)
refused_table(16, "five bytes", b"\x01\x00\x00\x00\x05")
refused_table(16, "the first section one byte longer", changed(K1_TABLE, 6, 14))
refused_table(16, "the third section past the end", changed(K1_TABLE, 31, 1))
refused_table(16, "the fourth section one byte longer", changed(K1_TABLE, 60, 15))
refused_table(16, "the fourth section one byte shorter", changed(K1_TABLE, 60, 13))
refused_table(16, "the fourth length's upper byte", changed(K1_TABLE, 57, 1))
THREE = n2(len(V)) + V + n2(1) + NO_EQUATION + n2(4) + actions((0, 5, b""))
refused_table(16, "the fourth section missing", b"\x01" + n4(5 + len(THREE)) + THREE)

ACTS = actions((0, 1, le(var(0), const(3))), (1, 2, TRUE), (2, 3, b"\x00" + const(2)), (5, 5, b""))
LOCS = locations([(0, 1, FINISHED), (1, 0, NONE)], [(2, FINISHED, NONE), (5, HALTED, NONE)])


def acted(*acts, es=NO_EQUATION):
    """A table of these actions, whose one location has the first."""
    n, kind, _ = acts[0]
    targets = {1: (0, 0), 5: (HALTED, NONE)}.get(kind, (0, NONE))
    return table_of(V, es, actions(*acts), locations([(n, *targets)]))


def located(locs):
    return table_of(V, NO_EQUATION, ACTS, locs)


of_table("a table of our own", located(LOCS), Z, "p2 p1 p0 p0 p2 p2", "read table 0, 1 0 4 2; by table 0, 3 3 0: 25 200 x2 25 201 23")
of_table("its STOP", located(LOCS), start([3]), "t p0 p5 p5", "read table 0, 1 0 4 2; by table 0, 2 2 0: 27 200 202 23")
of_table("its test is false", located(LOCS), start([4]), "p0 p0", "by table 0, 1 1 0: 201 23")
# an assign does not tell whether it was a RESET or a REINITIAL
for name, es in [("a driven variable", equations(rate(0, 1))), ("a variable that is not driven", NO_EQUATION)]:
    of_table(f"an assignment to {name}", acted((7, 3, b"\x00" + const(2)), es=es), Z, "p7", "read table 0, 1 0 1 1; by table 0, 1 0 0: 200")
for side, n, t, answer in SIDES:
    of_table(f"its assignment is {side}", acted((7, 3, b"\x00" + n)), Z, "p7 p7", f"by table 0, 0 1 1: {answer} 23")
    of_table(f"its test is {side}", acted((7, 1, t)), Z, "p7 p7", f"by table 0, 0 1 1: {answer} 23")
    of_table(f"its wait is {side}", acted((7, 2, t)), Z, "t p7", f"by table 0, 0 1 1: {answer} 23")
for n, name, vs, es in [
    (17, "no variables (4)", b"\x00", NO_EQUATION),
    (17, "a byte too many (4)", V + b"\x00", NO_EQUATION),
    (17, "initial above maximum (5)", variables((0, 1, 2)), NO_EQUATION),
    (17, "empty equation section (6)", V, b""),
    (17, "nine modes (6)", V, equations(case(0, *[mode()] * 9))),
    (17, "a missing variable (7)", V, equations(rate(1, 1))),
    (17, "two rates (8)", V, equations(rate(0, 1), rate(0, 1))),
    (17, "a switch's truth (12)", V, equations(one(const(1)))),
]:
    refused_table(n, name, table_of(vs, es, ACTS, LOCS))
for name, acts in [
    ("empty action section", b""),
    ("no actions", b"\x00"),
    ("an action missing", changed(ACTS, 0, 5)),
    ("a byte left over", ACTS + b"\x02"),
    ("an action cut", ACTS[:-1]),
    ("65 actions", bytes([65]) + b"".join(bytes([2, n, 5]) for n in range(65))),
    ("a length of 0", b"\x01\x00"),
    ("a length of 1", b"\x01\x01\x00"),
    ("node 64", actions((64, 5, b""))),
    ("a node twice", actions((0, 5, b""), (0, 5, b""))),
    ("nodes falling", actions((1, 5, b""), (0, 5, b""))),
    ("kind 0", actions((0, 0, b""))),
    ("kind 6", actions((0, 6, b""))),
    ("a test with no truth", actions((0, 1, b""))),
    ("a test with a number", actions((0, 1, const(1)))),
    ("a wait of depth 17", actions((0, 2, b"\x2A" * 16 + TRUE))),
    ("an assignment without its variable", actions((0, 3, b""))),
    ("an assignment to a missing variable", actions((0, 3, b"\x01" + const(1)))),
    ("an assignment with no number", actions((0, 3, b"\x00"))),
    ("an assignment of a truth", actions((0, 3, b"\x00" + TRUE))),
    ("an assignment from a missing variable", actions((0, 3, b"\x00" + var(1)))),
    ("a switch of a missing selector", actions((0, 4, b"\x00\x00"))),
    ("a switch of one byte", actions((0, 4, b"\x00"))),
    ("a stop with an operand", actions((0, 5, b"\x00"))),
    ("201 bytes of kind and operand", actions((0, 3, b"\x00" + long_number(199)))),
]:
    refused_table(18, name, table_of(V, NO_EQUATION, acts, LOCS))
refused_table(18, "a switch to a missing mode", acted((0, 4, b"\x00\x01"), es=equations(ONE_MODE)), start([0], [0]))
refused_table(18, "a switch of three bytes", acted((0, 4, b"\x00\x00\x00"), es=equations(ONE_MODE)), start([0], [0]))
of_table("a switch action", acted((0, 4, b"\x00\x01"), es=equations(case(0, mode(), mode()))), start([0], [0]), "p0 p0",
    "read table 0, 1 1 1 1; by table 0, 2 0 0: 200 x2")
of_table("200 bytes of kind and operand", acted((63, 3, b"\x00" + long_number(198))), Z, "p63 t",
    "read table 0, 1 0 1 1; by table 0, 1 1 0: 200 27")
of_table("64 actions", acted(*[(n, 5, b"") for n in range(64)]), Z, "p63 p0 p0", "read table 0, 1 0 64 1; by table 0, 1 2 0: 25 202 23")
for name, locs in [
    ("empty location section", b""),
    ("one byte", b"\x00"),
    ("no locations", b"\x00\x00"),
    ("a location missing", changed(LOCS, 1, 3)),
    ("a byte left over", LOCS + b"\x00"),
    ("an entry cut", LOCS[:-1]),
    ("1,025 locations", locations(*[[(1, 0, NONE)]] * 1025)),
    ("no entries", locations([], [(1, 0, NONE)])),
    ("an unknown node", locations([(3, 0, NONE)])),
    ("node 64", locations([(64, 0, NONE)])),
    ("node 255", locations([(255, 0, NONE)])),
    ("a node twice", locations([(1, 0, NONE), (1, 0, NONE)])),
    ("nodes falling", locations([(2, 0, NONE), (1, 0, NONE)])),
    ("a target past the last", locations([(1, 1, NONE)])),
    ("a test to FFFD", locations([(0, HALTED, 0)])),
    ("a test with one target", locations([(0, 0, NONE)])),
    ("a test's second target past the last", locations([(0, 0, 1)])),
    ("a test's second target FFFD", locations([(0, 0, HALTED)])),
    ("a wait with two targets", locations([(1, 0, 0)])),
    ("a wait that halts", locations([(1, HALTED, NONE)])),
    ("a wait to FFFF", locations([(1, NONE, NONE)])),
    ("an assignment to FFFC", locations([(2, 0xFFFC, NONE)])),
    ("a stop that finishes", locations([(5, FINISHED, NONE)])),
    ("a stop to a location", locations([(5, 0, NONE)])),
    ("a stop with two targets", locations([(5, HALTED, HALTED)])),
]:
    refused_table(19, name, located(locs))
of_table("1,024 locations", located(locations(*[[(1, (i + 1023) % 1024, NONE)] for i in range(1024)])), Z, "p1 p1 t",
    "read table 0, 1 0 4 1024; by table 0, 2 1 0: 200 x2 31")
of_table("equal locations that nothing leads to", located(locations([(1, FINISHED, NONE)], [(1, FINISHED, NONE)], [(1, 2, NONE)])),
    Z, "p1 p1",
    "read table 0, 1 0 4 3; by table 0, 1 1 0: 201 23")
of_table("a test that leads both ways to itself", located(locations([(0, 0, 0), (2, 0, NONE)])), start([4]), "p0 p2 p0",
    "by table 0, 3 0 0: 200 x3")
refused_table(17, "17 before 18 and 19", table_of(b"\x00", NO_EQUATION, b"", b""))
refused_table(18, "18 before 19", table_of(V, NO_EQUATION, b"", b""))
of_table("19 before 20", located(b""), b"", "x00", "read table 19, 0 0 0 0; by table 19, 0 0 0", record_room=0)
of_table("20: of a table", located(LOCS), start([11]), "p0", "read table 0, 1 0 4 2; by table 20, 0 0 0")
of_table("21: of a table", located(LOCS), Z, "x0000", "read table 0, 1 0 4 2; by table 21, 0 0 0")
of_table("22: of a table", located(LOCS), Z, "p0", "read table 0, 1 0 4 2; by table 22, 0 0 0", record_room=12)
