"""Random inputs of the program, each made of what a generator draws. Read by the other scripts."""
import os
import re
import struct

from measure import TOP

DATA = os.path.join(TOP, "crates", "flp_cases", "data")
P = 2**64 - 2**32 + 1
EDGES = [0, 1, 2, 3, 15, 16, 17, 255, 256, 1024, 4095, 65535, 65536, 65537, 2**24, 2**28, 2**31, 2**32 - 1]
WORDS = [0, 1, 2, P - 2, P - 1, P, P + 1, 2**63, 2**64 - 1]


def examples(*endings):
    return [open(os.path.join(DATA, name), "rb").read() for name in sorted(os.listdir(DATA)) if name.endswith(endings)]


def changed(drawn, content, others):
    """The content with one to four changes."""
    for _ in range(drawn.randrange(1, 5)):
        at, kind = drawn.randrange(len(content) + 1), drawn.randrange(8)
        if kind == 0:
            content = content[:at]
        elif kind == 1:
            content = content[:at] + bytes([drawn.randrange(256)]) + content[at + 1 :]
        elif kind == 2:
            place = drawn.randrange(8, 36, 4)
            content = content[:place] + struct.pack("<I", drawn.choice(EDGES)) + content[place + 4 :]
        elif kind == 3:
            content = content[:at] + drawn.randbytes(drawn.randrange(1, 20)) + content[at:]
        elif kind == 4:
            content = content[:at] + drawn.choice(others)[at:]
        elif kind == 5:
            end = drawn.randrange(at, len(content) + 1)
            content = content[:end] + content[at:end] + content[end:]
        elif kind == 6:
            place = max(len(content) - 8 * drawn.randrange(1, 40), 0)
            content = content[:place] + struct.pack("<Q", drawn.choice(WORDS)) + content[place + 8 :]
        else:
            content = content[:at] + content[at + drawn.randrange(1, 20) :]
    return content


def with_more(drawn, batch):
    """A batch with records repeated and old claims in front of them, and with the numbers of its head set so."""
    length, claims, reports = struct.unpack_from("<3I", batch, 20)
    if claims or not reports:
        return batch
    start = 32 + length
    size = (len(batch) - start) // reports
    records = [batch[start + k * size : start + (k + 1) * size] for k in range(reports)]
    more = [drawn.choice(records) for _ in range(drawn.randrange(1, 6))]
    more = [drawn.randbytes(16) + record[16:] if drawn.randrange(2) else record for record in more]
    olds = sorted({drawn.choice(more)[:16] if drawn.randrange(2) else drawn.randbytes(16) for _ in range(3)})
    head = batch[:24] + struct.pack("<2I", len(olds), reports + len(more))
    return head + batch[32:start] + b"".join(olds) + b"".join(records + more)


def many(drawn, batch):
    """A batch of up to three segments of its records under nonces that count up, whole, cut or with bytes behind it."""
    length, claims, reports = struct.unpack_from("<3I", batch, 20)
    start = 32 + length + 16 * claims
    if not reports or (len(batch) - start) % reports:
        return batch
    size, count = (len(batch) - start) // reports, drawn.randrange(900, 2100)
    bodies = [batch[start + k * size + 16 : start + (k + 1) * size] for k in range(reports)]
    nonces = [place if drawn.randrange(200) else drawn.randrange(place + 1) for place in range(count)]
    records = [nonce.to_bytes(16, "big") + bodies[nonce % reports] for nonce in nonces]
    made = batch[:28] + struct.pack("<I", count) + batch[32:start] + b"".join(records)
    return made[: drawn.randrange(start, len(made) + 1)] if drawn.randrange(3) else made + bytes(drawn.randrange(2))


def index(drawn, names, depth):
    kind = drawn.randrange(6)
    if kind < 3 or depth == 0:
        return str(drawn.randrange(4))
    if kind == 3 and names:
        return drawn.choice(names)
    inner = [index(drawn, names, depth - 1) for _ in range(2)]
    return drawn.choice("+-*").join(inner) if kind < 5 else f"({inner[0]})"


def expression(drawn, gadgets, names, depth):
    """An expression, which may have faults of names, sorts, indices and numbers of arguments."""
    kind = drawn.randrange(10) if depth else drawn.randrange(4)
    inner = lambda: expression(drawn, gadgets, names, depth - 1)  # noqa: E731
    if kind == 0:
        return str(drawn.choice([0, 1, 2, 7, P - 1]))
    if kind == 1:
        return f"joint[{index(drawn, names, 1)}]"
    if kind <= 3:
        return f"meas{drawn.choice(['', '?'])}[{index(drawn, names, 1)}]"
    if kind == 4:
        name = drawn.choice("ijk")
        turns = f"{name} in {drawn.randrange(2)}..{index(drawn, names, 1)}"
        return f"sum {turns} ({expression(drawn, gadgets, names + [name], depth - 1)})"
    if kind <= 6:
        name, arity = drawn.choice(gadgets)
        count = arity if drawn.randrange(20) else arity + 1
        return f"{name}({', '.join(inner() for _ in range(min(count, 8)))})"
    if kind == 7:
        return f"({inner()})^{index(drawn, names, 1)}"
    return f" {drawn.choice('+-*')} ".join(inner() for _ in range(drawn.randrange(2, 4)))


def circuit_text(drawn):
    """A circuit text by the grammar; of half of them some bytes are changed."""
    kinds = [("mul", 2), ("poly 0 -1 1", 1), (f"psum {drawn.randrange(1, 4)} mul", 0), ("poly 1 2 3 4", 1)]
    gadgets, front = [], f"meas {drawn.randrange(1, 5)}; joint {drawn.randrange(3)}; "
    for place in range(drawn.randrange(1, 4)):
        kind, arity = drawn.choice(kinds)
        gadgets.append((f"g{place}", arity or 2 * int(kind.split()[1])))
        front += f"gadget g{place} = {kind}; "
    statements = []
    for _ in range(drawn.randrange(1, 4)):
        made = f"check {expression(drawn, gadgets, [], 3)};"
        statements.append(f"each m in 0..{drawn.randrange(4)} ( {made} )" if not drawn.randrange(4) else made)
    uses = "".join(f"check {name}({', '.join(['meas[0]'] * arity)}); " for name, arity in gadgets if drawn.randrange(8))
    text = (front + uses + " ".join(statements) + " out meas[0];").encode()
    return text if drawn.randrange(2) else changed(drawn, text, [text[::-1]])


def standard_text(drawn):
    length, chunk = drawn.randrange(1, 7), drawn.randrange(1, 5)
    return drawn.choice([
        "use count;",
        f"use sum max={drawn.choice([1, 2, 5, 255, 2**40])};",
        f"use sumvec length={length} bits={drawn.randrange(1, 6)} chunk={chunk};",
        f"use histogram length={length} chunk={chunk};",
        f"use multihot length={length} weight={drawn.randrange(1, length + 1)} chunk={chunk};",
    ])


def measurement(drawn, text):
    """A random measurement of a standard circuit, with the vector that it adds to the aggregate."""
    given = {key: int(value) for key, value in re.findall(r"(\w+)=(\d+)", text)}
    if "weight" in given:
        ones = drawn.sample(range(given["length"]), drawn.randrange(given["weight"] + 1))
        numbers = [int(place in ones) for place in range(given["length"])]
        return numbers, numbers
    if "histogram" in text:
        place = drawn.randrange(given["length"])
        return [place], [int(place == k) for k in range(given["length"])]
    most = 2 ** given["bits"] - 1 if "bits" in given else given.get("max", 1)
    numbers = [drawn.randint(0, most) for _ in range(given.get("length", 1))]
    return numbers, numbers


def vector_of(text, number):
    """What the measurement of this number adds to the aggregate in a batch of trials of a standard circuit."""
    given = {key: int(value) for key, value in re.findall(r"(\w+)=(\d+)", text)}
    length = given.get("length", 1)
    if "weight" in given:
        ones = number % (given["weight"] + 1)
        return [int((place + number) % length < ones) for place in range(length)]
    if "histogram" in text:
        return [int(place == number % length) for place in range(length)]
    most = 2 ** given["bits"] - 1 if "bits" in given else given.get("max", 1)
    return [(number + place) % (most + 1) for place in range(length)]
