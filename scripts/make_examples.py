#!/usr/bin/env python3
"""Remakes the example files, and the cases that say how each is answered.

    make_examples.py            writes them to `crates/flp_cases/data`
    make_examples.py --check    names those that differ from what would be written

What the program must print stands beside each file, worked out by hand. The words of the reports are worked out
here from the definitions alone: sums and products modulo p, wires by interpolation over the powers of a root of
unity, gadget polynomials by products of polynomials. Each batch is judged here too, share by share, before it is
written. Nothing that the program printed enters.
"""
import copy
import os
import sys

TOP = os.path.dirname(os.path.dirname(os.path.abspath(__file__)))
P = 2**64 - 2**32 + 1

# ---- words and polynomials, which are lists of coefficients, the lowest first


def inverse(a):
    return pow(a, P - 2, P)


def root(size):
    """The root of unity whose first `size` powers are the domain of that size."""
    return pow(7, (P - 1) // size, P)


def value(poly, at):
    return sum(c * pow(at, k, P) for k, c in enumerate(poly)) % P


def plus(a, b):
    a, b = (a, b) if len(a) >= len(b) else (b, a)
    return [(c + (b[k] if k < len(b) else 0)) % P for k, c in enumerate(a)]


def times(a, b):
    product = [0] * (len(a) + len(b) - 1)
    for i, c in enumerate(a):
        for j, d in enumerate(b):
            product[i + j] = (product[i + j] + c * d) % P
    return product


def interpolate(values):
    """The polynomial of as many coefficients that has these values on the domain."""
    size = len(values)
    back = inverse(root(size))
    return [inverse(size) * sum(v * pow(back, i * k, P) for i, v in enumerate(values)) % P for k in range(size)]


# ---- gadgets, applied to polynomials; a value is a polynomial of one coefficient


class Mul:
    arity, degree = 2, 2

    def apply(self, wires):
        return times(wires[0], wires[1])


class Poly:
    arity = 1

    def __init__(self, *coefficients):
        self.coefficients = coefficients
        self.degree = len(coefficients) - 1

    def apply(self, wires):
        result = [self.coefficients[-1] % P]
        for c in reversed(self.coefficients[:-1]):
            result = plus(times(result, wires[0]), [c % P])
        return result


class Psum:
    """So many products, summed up: `psum N mul`."""

    degree = 2

    def __init__(self, count):
        self.count, self.arity = count, 2 * count

    def apply(self, wires):
        result = [0]
        for k in range(self.count):
            result = plus(result, times(wires[2 * k], wires[2 * k + 1]))
        return result


# ---- circuits: `read` takes an encoding, the joint words, what 1 counts as, and how gadget g answers its inputs,
# and gives the checks; `outs` takes an encoding


class Circuit:
    def __init__(self, text, meas, joint, gadgets, read, outs):
        self.text, self.meas, self.joint, self.gadgets, self.read, self.outs = text, meas, joint, gadgets, read, outs
        self.calls = [0] * len(gadgets)
        self.checks = len(read([0] * meas, [0] * joint, 1, self.count))
        self.query = len(gadgets) + (self.checks if self.checks > 1 else 0)
        self.proof = sum(g.arity + g.degree * (self.points(k) - 1) + 1 for k, g in enumerate(gadgets))

    def count(self, gadget, inputs):
        self.calls[gadget] += 1
        assert len(inputs) == self.gadgets[gadget].arity
        return 0

    def points(self, gadget):
        """The size of the gadget's domain: the least power of two above the number of its calls."""
        return 1 << self.calls[gadget].bit_length()

    def lengths(self):
        """What `lengths` prints: meas, joint, prove, query, proof, verifier and outs."""
        seeds = sum(g.arity for g in self.gadgets)
        verifier = 1 + seeds + len(self.gadgets)
        outs = len(self.outs([0] * self.meas))
        return [self.meas, self.joint, seeds, self.query, self.proof, verifier, outs]


def bits(number, count):
    return [number >> k & 1 for k in range(count)]


def number(words):
    return sum(w << k for k, w in enumerate(words))


def count_circuit():
    return Circuit("use count;", 1, 0, [Mul()], lambda x, joint, one, call: [call(0, [x[0], x[0]]) - x[0]], lambda x: x)


def sum_circuit(most):
    size = most.bit_length()
    above = 2**size - 1 - most

    def read(x, joint, one, call):
        each = [call(0, [word]) for word in x]
        return each + [above * one + number(x[:size]) - number(x[size:])]

    return Circuit(f"use sum max={most};", 2 * size, 0, [Poly(0, -1, 1)], read, lambda x: [number(x[:size])])


def range_check(x, joint, one, call, chunk):
    """Sums up w * (w - 1) over all words w of the encoding, each times a power of its chunk's joint word."""
    total = 0
    for c, word in enumerate(joint):
        inputs = []
        for j in range(chunk):
            w = x[c * chunk + j] if c * chunk + j < len(x) else 0
            inputs += [pow(word, j + 1, P) * w, w - one]
        total += call(0, inputs)
    return total


def sumvec_circuit(length, size, chunk):
    meas = length * size

    def read(x, joint, one, call):
        return [range_check(x, joint, one, call, chunk)]

    def outs(x):
        return [number(x[k * size : (k + 1) * size]) for k in range(length)]

    text = f"use sumvec length={length} bits={size} chunk={chunk};"
    return Circuit(text, meas, -(-meas // chunk), [Psum(chunk)], read, outs)


def histogram_circuit(length, chunk):
    def read(x, joint, one, call):
        return [range_check(x, joint, one, call, chunk), sum(x) - one]

    text = f"use histogram length={length} chunk={chunk};"
    return Circuit(text, length, -(-length // chunk), [Psum(chunk)], read, lambda x: x)


def multihot_circuit(length, weight, chunk):
    size = weight.bit_length()
    above = 2**size - 1 - weight

    def read(x, joint, one, call):
        return [range_check(x, joint, one, call, chunk), above * one + sum(x[:length]) - number(x[length:])]

    text = f"use multihot length={length} weight={weight} chunk={chunk};"
    return Circuit(text, length + size, -(-(length + size) // chunk), [Psum(chunk)], read, lambda x: x[:length])


BODY = """\
# A vote: -1, 0 or 1, which is its own third power.
meas 1; joint 0; gadget g = mul;
check g(g(meas[0],meas[0]),meas[0])-meas[0];
out meas[0];"""

RATING = """\
# A rating from 0 to 3, and 1 where there is one: where there is none, both are 0.
meas 2; joint 0;
gadget both = mul;
gadget range = poly 0 -6 11 -6 1;
check both(meas[1], meas[1]) - meas[1];
check range(meas[0]);
check both(meas[0], meas[1]) - meas[0];
out meas[0]; out meas[1];"""


def body_circuit():
    def read(x, joint, one, call):
        return [call(0, [call(0, [x[0], x[0]]), x[0]]) - x[0]]

    return Circuit(BODY, 1, 0, [Mul()], read, lambda x: x)


def rating_circuit():
    def read(x, joint, one, call):
        return [call(0, [x[1], x[1]]) - x[1], call(1, [x[0]]), call(0, [x[0], x[1]]) - x[0]]

    return Circuit(RATING, 2, 0, [Mul(), Poly(0, -6, 11, -6, 1)], read, lambda x: x)


# ---- proofs and verifiers


def rows(circuit, x, joint, one, answer):
    """The checks, and of each gadget the inputs of its calls; `answer` takes a gadget, a call's number and inputs."""
    inputs = [[] for _ in circuit.gadgets]

    def call(gadget, words):
        inputs[gadget].append([w % P for w in words])
        return answer(gadget, len(inputs[gadget]), words)

    return [c % P for c in circuit.read(x, joint, one, call)], inputs


def wires(circuit, gadget, seeds, inputs):
    """A polynomial for each input of a gadget: its seed, and then its input of each call, on the domain."""
    rest = circuit.points(gadget) - 1 - len(inputs)
    return [interpolate([seed] + [row[j] for row in inputs] + [0] * rest) for j, seed in enumerate(seeds)]


def honest(circuit, x, joint, seeds):
    """The honest proof of an encoding."""

    def answer(gadget, call, words):
        return circuit.gadgets[gadget].apply([[w % P] for w in words])[0]

    _, inputs = rows(circuit, x, joint, 1, answer)
    proof = []
    for k, gadget in enumerate(circuit.gadgets):
        own, seeds = seeds[: gadget.arity], seeds[gadget.arity :]
        proof += own + gadget.apply(wires(circuit, k, own, inputs[k]))
    assert len(proof) == circuit.proof
    return proof


def cut(circuit, proof):
    """The seeds and the polynomial that a proof has for each gadget."""
    parts = []
    for k, gadget in enumerate(circuit.gadgets):
        size = gadget.arity + gadget.degree * (circuit.points(k) - 1) + 1
        parts.append((proof[: gadget.arity], proof[gadget.arity : size]))
        proof = proof[size:]
    return parts


def verifier(circuit, x, joint, proof, query, one):
    """The verifier words of one share, on which 1 counts as `one`."""
    parts = cut(circuit, proof)

    def answer(gadget, call, words):
        return value(parts[gadget][1], pow(root(circuit.points(gadget)), call, P))

    checks, inputs = rows(circuit, x, joint, one, answer)
    weights, points = query[: -len(parts)] or [1], query[-len(parts) :]
    result = [sum(w * c for w, c in zip(weights, checks)) % P]
    for k, (seeds, poly) in enumerate(parts):
        result += [value(wire, points[k]) for wire in wires(circuit, k, seeds, inputs[k])] + [value(poly, points[k])]
    return result


def decide(circuit, words):
    holds, words = words[0] == 0, words[1:]
    for gadget in circuit.gadgets:
        inputs, last, words = words[: gadget.arity], words[gadget.arity], words[gadget.arity + 1 :]
        holds = holds and gadget.apply([[w] for w in inputs]) == [last]
    return holds


# ---- reports and batches


class Report:
    """The words of a report: its share 0 makes the sums, and every word of share s is s."""

    def __init__(self, circuit, x, proofs, joint=(), query=(), shares=2):
        x = [word % P for word in x]
        whole = x + [word % P for proof in proofs for word in proof]
        others = list(range(1, shares))
        self.shares, self.proofs = shares, len(proofs)
        self.words = [(w - sum(others)) % P for w in whole] + [s for s in others for _ in whole]
        for k in range(len(proofs)):
            self.words += list(joint[k] if joint else []) + list(query[k])


def report(circuit, x, joint=(), query=(), shares=2, first=3):
    """A report with its honest proofs, one for each list of query words. Seeds go up by 2 from `first`."""
    x = [word % P for word in x]
    seeds = [own_seeds(circuit, first + k) for k in range(len(query))]
    proofs = [honest(circuit, x, list(joint[k]) if joint else [], own) for k, own in enumerate(seeds)]
    return Report(circuit, x, proofs, joint, query, shares)


def own_seeds(circuit, first):
    """The seeds of a proof: odd steps up from the first."""
    return [first + 2 * j for j in range(sum(g.arity for g in circuit.gadgets))]


def changed(given, at, word):
    """The report with one word replaced."""
    result = copy.deepcopy(given)
    result.words[at] = word
    return result


def nonce(number):
    return bytes([number] + list(range(1, 16)))


def little(numbers, size):
    return b"".join(n.to_bytes(size, "little") for n in numbers)


class Batch:
    """Reports, each with the number of its nonce, behind old claims."""

    def __init__(self, circuit, reports, claims=(), shares=2, proofs=1):
        assert all(r.shares == shares and r.proofs == proofs for _, r in reports)
        self.circuit, self.reports, self.claims, self.shares, self.proofs = circuit, reports, claims, shares, proofs

    def content(self, buckets=None, bucket=0):
        """The bytes in version 1; with a number of buckets in version 2, where all reports are of one bucket."""
        text, version = self.circuit.text.encode(), 1 if buckets is None else 2
        counts = [len(text), len(self.claims), len(self.reports)] + ([] if buckets is None else [buckets])
        head = b"FLPBATCH" + little([version, self.shares, self.proofs] + counts, 4)
        own = b"" if buckets is None else little([bucket], 4)
        records = [nonce(number) + own + little(r.words, 8) for number, r in self.reports]
        return head + text + b"".join(nonce(c) for c in self.claims) + b"".join(records)

    def parts(self, words, proof):
        """The share of the encoding and of a proof that each share has, and the proof's joint and query words."""
        c = self.circuit
        size = c.meas + self.proofs * c.proof
        own = words[self.shares * size + proof * (c.joint + c.query) :]
        shares = []
        for s in range(self.shares):
            part = words[s * size : (s + 1) * size]
            shares.append((part[: c.meas], part[c.meas + proof * c.proof :][: c.proof]))
        return shares, own[: c.joint], own[c.joint : c.joint + c.query]

    def holds(self, words, proof):
        shares, joint, query = self.parts(words, proof)
        one = inverse(self.shares)
        each = [verifier(self.circuit, x, joint, share, query, one) for x, share in shares]
        return decide(self.circuit, [sum(column) % P for column in zip(*each)])

    def inside(self, words):
        """The least proof, and then gadget, whose query point lies in the gadget's domain."""
        for proof in range(self.proofs):
            points = self.parts(words, proof)[2][-len(self.circuit.gadgets) :]
            for gadget, point in enumerate(points):
                if pow(point, self.circuit.points(gadget), P) == 1:
                    return proof, gadget
        return None

    def verdict(self, words):
        bad = [k for k, word in enumerate(words) if word >= P]
        inside = None if bad else self.inside(words)
        if bad:
            return f"malformed {bad[0]}"
        if inside:
            return f"domain {inside[0]} {inside[1]}"
        return "accepted" if all(self.holds(words, k) for k in range(self.proofs)) else "rejected"

    def text(self):
        known, lines, rows = set(self.claims), [], []
        for number, r in self.reports:
            verdict = "replayed" if number in known else self.verdict(r.words)
            known.add(number)
            lines.append(f"{nonce(number).hex()} {verdict}\n")
            if verdict == "accepted":
                encodings = [x for x, _ in self.parts(r.words, 0)[0]]
                rows.append(self.circuit.outs([sum(column) % P for column in zip(*encodings)]))
        outs = len(self.circuit.outs([0] * self.circuit.meas))
        sums = [str(sum(row[k] for row in rows) % P) for k in range(outs)]
        return "".join(lines) + f"count {len(rows)}\naggregate {' '.join(sums)}\n"


class Jobs:
    """Measurements or encodings, from which a batch is made: the nonces go up from 0."""

    def __init__(self, circuit, inputs, joint=(), query=(), shares=2):
        self.circuit, self.inputs, self.joint, self.query, self.shares = circuit, inputs, joint, query, shares

    def words(self, given):
        """The words of a job: in each share s but share 0 every word is s."""
        proofs = len(self.query)
        part = self.circuit.meas + proofs * self.circuit.proof
        words = [w % P for w in given] + [s for s in range(1, self.shares) for _ in range(part)]
        for k in range(proofs):
            words += own_seeds(self.circuit, 3 + k)
        for k in range(proofs):
            words += list(self.joint[k] if self.joint else []) + list(self.query[k])
        return words

    def content(self):
        text = self.circuit.text.encode()
        head = b"FLPTASKS" + little([1, self.shares, len(self.query), len(text), len(self.inputs)], 4)
        return head + text + b"".join(nonce(k) + little(self.words(x), 8) for k, x in enumerate(self.inputs))


# ---- the examples

COUNT, SUM, SUMVEC = count_circuit(), sum_circuit(5), sumvec_circuit(2, 3, 2)
HISTOGRAM, MULTIHOT = histogram_circuit(4, 2), multihot_circuit(4, 2, 2)
VOTE, RATED = body_circuit(), rating_circuit()

# Each circuit, with what `lengths` prints of it.
CIRCUITS = {
    "count": (COUNT, [1, 0, 2, 1, 5, 4, 1]),
    "sum": (SUM, [6, 0, 1, 8, 16, 3, 1]),
    "sumvec": (SUMVEC, [6, 3, 4, 1, 11, 6, 2]),
    "histogram": (HISTOGRAM, [4, 2, 4, 3, 11, 6, 4]),
    "multihot": (MULTIHOT, [6, 3, 4, 3, 11, 6, 4]),
    "body": (VOTE, [1, 0, 2, 1, 9, 4, 1]),
    "rating": (RATED, [2, 0, 3, 5, 15, 6, 2]),
}

# Query words: one for each check where there is more than one, and then the point 2 for each gadget.
ONE = report(COUNT, [1], query=[[2]])
TWO = Report(COUNT, [2], [[4, 6, 12, 10, 2]], query=[[2]])
FALSE = [Report(COUNT, [4], [[6, 8, 24, 21, 1]], query=[[t]]) for t in (2, 3, 4)]
SUMMED = [report(SUM, bits(m, 3) + bits(m + 2, 3), query=[[1, 2, 3, 4, 5, 6, 7, 2]]) for m in (5, 2)]
VECTORS = [report(SUMVEC, bits(a, 3) + bits(b, 3), joint=[[2, 3, 5]], query=[[2]]) for a, b in ((5, 3), (1, 7))]
PLACED = [report(HISTOGRAM, x, joint=[[2, 3]], query=[[5, 7, 2]]) for x in ([0, 0, 1, 0], [1, 0, 0, 0])]
CHOSEN = [report(MULTIHOT, x, joint=[[2, 3, 5]], query=[[5, 7, 2]]) for x in ([1, 0, 1, 0, 1, 1], [0, 0, 1, 0, 0, 1])]
VOTES = [report(VOTE, [x], query=[[2]]) for x in (1, -1, -1)]
RATINGS = [report(RATED, x, query=[[1, 2, 3, 2, 2]]) for x in ([3, 1], [0, 0], [2, 1], [2, 0])]
BOTH = [report(HISTOGRAM, [1, 1, 0, 0], joint=[[2, 3]], query=[[1, w, 2]]) for w in (1, 0)]
THREE = report(HISTOGRAM, [0, 1, 0, 0], joint=[[2, 3], [5, 7]], query=[[1, 2, 2], [3, 4, 3]], shares=3)


def lines(*verdicts):
    return "".join(f"{number:02x}0102030405060708090a0b0c0d0e0f {verdict}\n" for number, verdict in verdicts)


# Each batch, with what `verify` prints of it.
BATCHES = {
    "accepted": (Batch(COUNT, [(0, ONE)]), lines((0, "accepted")) + "count 1\naggregate 1\n"),
    "rejected": (Batch(COUNT, [(0, TWO)]), lines((0, "rejected")) + "count 0\naggregate 0\n"),
    "domain": (Batch(COUNT, [(0, changed(ONE, 12, 1))]), lines((0, "domain 0 0")) + "count 0\naggregate 0\n"),
    "malformed": (
        Batch(COUNT, [(0, changed(ONE, 6, P)), (0, ONE)]),
        lines((0, "malformed 6"), (0, "replayed")) + "count 0\naggregate 0\n",
    ),
    "replayed": (
        Batch(COUNT, [(0, ONE), (0, ONE)]),
        lines((0, "accepted"), (0, "replayed")) + "count 1\naggregate 1\n",
    ),
    "claimed": (
        Batch(COUNT, [(0, ONE), (1, ONE)], claims=[0, 7]),
        lines((0, "replayed"), (1, "accepted")) + "count 1\naggregate 1\n",
    ),
    "empty": (Batch(COUNT, []), "count 0\naggregate 0\n"),
    "false": (
        Batch(COUNT, list(enumerate(FALSE))),
        lines((0, "accepted"), (1, "accepted"), (2, "rejected")) + "count 2\naggregate 8\n",
    ),
    "sum": (Batch(SUM, list(enumerate(SUMMED))), lines((0, "accepted"), (1, "accepted")) + "count 2\naggregate 7\n"),
    "sumvec": (
        Batch(SUMVEC, list(enumerate(VECTORS))),
        lines((0, "accepted"), (1, "accepted")) + "count 2\naggregate 6 10\n",
    ),
    "histogram": (
        Batch(HISTOGRAM, list(enumerate(PLACED))),
        lines((0, "accepted"), (1, "accepted")) + "count 2\naggregate 1 0 1 0\n",
    ),
    "multihot": (
        Batch(MULTIHOT, list(enumerate(CHOSEN))),
        lines((0, "accepted"), (1, "accepted")) + "count 2\naggregate 1 0 2 0\n",
    ),
    "body": (
        Batch(VOTE, list(enumerate(VOTES))),
        lines((0, "accepted"), (1, "accepted"), (2, "accepted")) + f"count 3\naggregate {P - 1}\n",
    ),
    "rating": (
        Batch(RATED, list(enumerate(RATINGS))),
        lines((0, "accepted"), (1, "accepted"), (2, "accepted"), (3, "rejected")) + "count 3\naggregate 5 2\n",
    ),
    "checks": (
        Batch(HISTOGRAM, list(enumerate(BOTH))),
        lines((0, "rejected"), (1, "accepted")) + "count 1\naggregate 1 1 0 0\n",
    ),
    "shares": (
        Batch(HISTOGRAM, [(0, THREE)], shares=3, proofs=2),
        lines((0, "accepted")) + "count 1\naggregate 0 1 0 0\n",
    ),
}


# Each job file, with the name of the batch that `prove` makes of it.
JOBS = {
    "count": (Jobs(COUNT, [[1]], query=[[2]]), "accepted"),
    "sum": (Jobs(SUM, [[5], [2]], query=[[1, 2, 3, 4, 5, 6, 7, 2]]), "sum"),
    "sumvec": (Jobs(SUMVEC, [[5, 3], [1, 7]], joint=[[2, 3, 5]], query=[[2]]), "sumvec"),
    "histogram": (Jobs(HISTOGRAM, [[2], [0]], joint=[[2, 3]], query=[[5, 7, 2]]), "histogram"),
    "multihot": (Jobs(MULTIHOT, [[1, 0, 1, 0], [0, 0, 1, 0]], joint=[[2, 3, 5]], query=[[5, 7, 2]]), "multihot"),
    "body": (Jobs(VOTE, [[1], [-1], [-1]], query=[[2]]), "body"),
    "shares": (Jobs(HISTOGRAM, [[1]], joint=[[2, 3], [5, 7]], query=[[1, 2, 2], [3, 4, 3]], shares=3), "shares"),
}

# Each job file that is refused, with the line.
REFUSED = {
    "range": (Jobs(COUNT, [[1], [2]], query=[[2]]), 8, "flp: place 1: range 0 2\n"),
    "weight": (Jobs(MULTIHOT, [[1, 1, 1, 0]], joint=[[2, 3, 5]], query=[[5, 7, 2]]), 8, "flp: place 0: weight 3\n"),
    "check": (Jobs(RATED, [[3, 1], [2, 0]], query=[[1, 2, 3, 2, 2]]), 8, "flp: place 1: check 2 of proof 0\n"),
    "word": (Jobs(COUNT, [[1]], query=[[P]]), 6, "flp: job: word 0 9\n"),
}

# What `explain` prints of a batch.
EXPLAINED = {
    "accepted": lines((0, "0 valid")),
    "rejected": lines((0, "0 word 0 bound 0")),
    "malformed": lines((0, "malformed 6"), (0, "0 valid")),
    "false": lines((0, "0 word 0 bound 2"), (1, "0 word 0 bound 2"), (2, "0 word 0 bound 2")),
    "checks": lines((0, "0 word 1 bound 1"), (1, "0 word 1 bound 1")),
    "shares": lines((0, "0 valid"), (0, "1 valid")),
}

# What `prep --party 1` prints of a batch.
PREPARED = {
    "accepted": lines((0, "prep " + little([0, 1, 1, 7], 8).hex())),
    "domain": lines((0, "domain 0 0")),
}


VERIFY, LENGTHS, EXPLAIN, PREPARE, PROVE = "verify --workers 1", "lengths", "explain", "prep --party 1", "prove"

HEADING = """\
# How the example files beside this one are answered. Written by `scripts/make_examples.py`; what they show is told in
# `README.md`.
"""


def case(name, command, file, status, output):
    """A block of a file of cases. The output is lines."""
    return "\n".join([f"case {name}", f"run flp {command}", f"use {file}", f"status {status}", *output]) + "\n"


def printed(text):
    """The lines that make a text."""
    return [report_line(line) for line in text.splitlines()]


def report_line(line):
    first, end = line[:2], nonce(0).hex()[2:]
    return f"report {int(first, 16)} {line[33:]}" if line[2:32] == end else f"line {line}"


def circuit_cases():
    for name, (circuit, numbers) in CIRCUITS.items():
        assert circuit.lengths() == numbers, name
        file = f"{name}.circuit"
        yield case(f"{file} has these lengths", LENGTHS, file, 0, ["lengths " + " ".join(map(str, numbers))])


def batch_cases():
    for name, (batch, text) in BATCHES.items():
        assert batch.text() == text, name
        yield case(f"{name}.batch is verified", VERIFY, f"{name}.batch", 0, printed(text))
    for name, text in EXPLAINED.items():
        yield case(f"{name}.batch is explained", EXPLAIN, f"{name}.batch", 0, printed(text))
    for name, text in PREPARED.items():
        yield case(f"{name}.batch has these verifiers of share 1", PREPARE, f"{name}.batch", 0, printed(text))
    yield case("truncated.batch is refused", VERIFY, "truncated.batch", "6 flp: batch: truncated 161 162", [])


def job_cases():
    for name, (_, batch) in JOBS.items():
        yield case(f"{name}.job makes {batch}.batch", PROVE, f"{name}.job", 0, [f"use {batch}.batch"])
    for name, (_, status, line) in REFUSED.items():
        yield case(f"{name}.job is refused", PROVE, f"{name}.job", f"{status} {line.strip()}", [])


def files():
    """Names of files, each with its bytes."""
    for name, (circuit, _) in CIRCUITS.items():
        yield f"{name}.circuit", circuit.text.encode() + b"\n"
    for name, (batch, _) in BATCHES.items():
        yield f"{name}.batch", batch.content()
    yield "truncated.batch", BATCHES["accepted"][0].content()[:-1]
    yield "buckets.batch", BATCHES["accepted"][0].content(buckets=2, bucket=1)
    for name, (jobs, *_) in [*JOBS.items(), *REFUSED.items()]:
        yield f"{name}.job", jobs.content()
    cases = [HEADING, *circuit_cases(), *batch_cases(), *job_cases()]
    yield "examples.cases", "\n".join(cases).encode()


def write(path, content):
    with open(path, "wb") as file:
        file.write(content)


def read(path):
    with open(path, "rb") as file:
        return file.read()


def main(words):
    failed = []
    for name, content in files():
        path = os.path.join(TOP, "crates", "flp_cases", "data", name)
        if not words:
            write(path, content)
        elif not (os.path.exists(path) and read(path) == content):
            failed.append(name)
    for name in failed:
        print(f"{name} differs")
    return 1 if failed else 0


if __name__ == "__main__":
    sys.exit(main(sys.argv[1:]))
