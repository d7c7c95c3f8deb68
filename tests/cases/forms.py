"""The forms of document 01 as bytes: expressions, the three sections of a schedule, tables, starts and events."""

TICK = bytes([0, 0, 0])


def n2(n):
    return n.to_bytes(2, "big")


def n4(n):
    return n.to_bytes(4, "big")


def i4(n):
    return n.to_bytes(4, "big", signed=True)


# numbers
def const(n):
    return b"\x01" + i4(n)


def var(v):
    return bytes([0x02, v])


def add(a, b):
    return b"\x10" + a + b


def sub(a, b):
    return b"\x11" + a + b


def mul(a, b):
    return b"\x12" + a + b


def neg(a):
    return b"\x14" + a


def negs(k, a):
    """k negations of a: its depth is k more."""
    return b"\x14" * k + a


# truths
def le(a, b):
    return b"\x20" + a + b


def lt(a, b):
    return b"\x21" + a + b


def eq(a, b):
    return b"\x22" + a + b


def ne(a, b):
    return b"\x23" + a + b


def both(a, b):
    return b"\x28" + a + b


def either(a, b):
    return b"\x29" + a + b


def no(a):
    return b"\x2A" + a


TRUE = b"\x2F"
FALSE = no(TRUE)
LOWEST = -2147483648
HIGHEST = 2147483647
# numbers and truths that fault: 2147483648 is above, -2147483649 is below
TOO_HIGH = neg(const(LOWEST))
TOO_LOW = sub(const(LOWEST), const(1))
FAULT_ABOVE = le(TOO_HIGH, const(0))
FAULT_BELOW = le(TOO_LOW, const(0))


# variables: (minimum, maximum, initial) each
def variables(*vs):
    return bytes([len(vs)]) + b"".join(i4(a) + i4(b) + i4(c) for a, b, c in vs)


# equations
def rate(v, n):
    """Kind 1: variable v is driven at the rate n."""
    return b"\x01" + bytes([v]) + i4(n)


def mode(rates=(), switches=()):
    """rates: (variable, rate); switches: (target mode, truth)."""
    out = bytes([len(rates)]) + b"".join(bytes([v]) + i4(n) for v, n in rates)
    out += bytes([len(switches)])
    for target, truth in switches:
        out += bytes([1 + len(truth), target]) + truth
    return out


def case(initial, *modes):
    return bytes([2, initial, len(modes)]) + b"".join(modes)


def equations(*es):
    return bytes([len(es)]) + b"".join(n2(len(e)) + e for e in es)


# nodes: a list, the node and then its children's
def node(kind, payload=b""):
    return [bytes([kind]) + payload]


def sequence(*cs):
    return node(1, bytes([len(cs)])) + sum(cs, [])


def parallel(*cs):
    return node(2, bytes([len(cs)])) + sum(cs, [])


def loop(truth, body):
    return node(3, truth) + body


def either_of(truth, first, second):
    return node(4, truth) + first + second


def until(truth):
    return node(5, truth)


def reset(v, number):
    return node(6, bytes([v]) + number)


def reinitial(v, number):
    return node(7, bytes([v]) + number)


def switch(selector, m):
    return node(8, bytes([selector, m]))


STOP = node(9)


def nodes(ns):
    return bytes([len(ns) % 256]) + b"".join(bytes([len(n)]) + n for n in ns)


# files
def file_of(vs, es, ns, version=1):
    """A schedule file of three sections of bytes."""
    body = b"".join(n2(len(x)) + x for x in (vs, es, ns))
    return bytes([version]) + n2(3 + len(body)) + body


def schedule(vs, es, tree):
    return file_of(vs, es, nodes(tree))


def table_of(vs, es, acts, locs, version=1):
    """A table of four sections of bytes."""
    body = b"".join(n2(len(x)) + x for x in (vs, es, acts)) + n4(len(locs)) + locs
    return bytes([version]) + n4(5 + len(body)) + body


def actions(*acts):
    """(node, kind, operand) each."""
    return bytes([len(acts)]) + b"".join(bytes([2 + len(o), n, k]) + o for n, k, o in acts)


FINISHED, HALTED, NONE = 0xFFFE, 0xFFFD, 0xFFFF


def locations(*ls):
    """A list of (node, target, target on false) for each location."""
    out = n2(len(ls))
    for l in ls:
        out += bytes([len(l)]) + b"".join(bytes([n]) + n2(a) + n2(b) for n, a, b in l)
    return out


# runs
def start(values, modes=()):
    return b"".join(i4(v) for v in values) + bytes(modes)


def events(text):
    """t is a tick, p3 picks node 3, s1.2 takes switch 2 of selector 1, x020304 is three bytes as they stand."""
    out = b""
    for w in text.split():
        if w == "t":
            out += TICK
        elif w[0] == "p":
            out += bytes([1, int(w[1:]), 0])
        elif w[0] == "s":
            a, b = w[1:].split(".")
            out += bytes([2, int(a), int(b)])
        else:
            out += bytes.fromhex(w[1:])
    return out
