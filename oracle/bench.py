#!/usr/bin/env python3
"""Works out what the program `bench` prints, from docs/BENCH.md, docs/DEVICES.md, docs/VOLUME.md, docs/TREE.md and docs/DIGESTS.md,
without any of this repository's code. SHA-256 is Python's hashlib; SipHash-2-4 stands below, and is tried on its authors' vectors.

    python3 oracle/bench.py < script.txt        the answer, as crates/bench/stdout has it for crates/bench/stdin
    python3 oracle/bench.py random SEED         makes a script of a few boxes with random piles, bad blocks and calls
    python3 oracle/bench.py vectors < crates/vectors/data/siphash24.txt

It takes good scripts only.
"""
import hashlib
import random
import sys

BLOCK, RECORD, ZERO = 512, 2048, bytes(512)
PLACES = 4
MASK = 2**64 - 1


# Hashes


def turned(word, by):
    return (word << by | word >> (64 - by)) & MASK


def sip_round(v):
    v0, v1, v2, v3 = v
    v0 = (v0 + v1) & MASK
    v1 = turned(v1, 13) ^ v0
    v0 = turned(v0, 32)
    v2 = (v2 + v3) & MASK
    v3 = turned(v3, 16) ^ v2
    v0 = (v0 + v3) & MASK
    v3 = turned(v3, 21) ^ v0
    v2 = (v2 + v1) & MASK
    v1 = turned(v1, 17) ^ v2
    return v0, v1, turned(v2, 32), v3


def siphash_2_4(key, message):
    k0, k1 = (int.from_bytes(half, "little") for half in (key[:8], key[8:]))
    v = (k0 ^ 0x736F6D6570736575, k1 ^ 0x646F72616E646F6D, k0 ^ 0x6C7967656E657261, k1 ^ 0x7465646279746573)
    padded = message.ljust(len(message) // 8 * 8 + 7, b"\0") + bytes([len(message) % 256])
    for at in range(0, len(padded), 8):
        word = int.from_bytes(padded[at : at + 8], "little")
        v = sip_round(sip_round(v[:3] + (v[3] ^ word,)))
        v = (v[0] ^ word,) + v[1:]
    v = (v[0], v[1], v[2] ^ 0xFF, v[3])
    for _ in range(4):
        v = sip_round(v)
    return (v[0] ^ v[1] ^ v[2] ^ v[3]).to_bytes(8, "little")


def try_vectors(lines):
    """Each line is a length and the hash of the bytes 00 01 02 .. of that length, under the key 00 01 .. 0f."""
    vectors = [line.split() for line in lines if not line.startswith("#")]
    wrong = [n for n, digits in vectors if siphash_2_4(bytes(range(16)), bytes(range(int(n)))).hex() != digits]
    print(f"{len(vectors) - len(wrong)} of {len(vectors)} vectors agree")
    sys.exit(1 if wrong or not vectors else 0)


class Hash:
    def __init__(self, name, digits):
        self.key = bytes.fromhex(digits)
        self.kind = {"sha256": 1, "siphash": 2}[name]
        self.known = {}

    def image(self, block):
        if block not in self.known:
            if self.kind == 1:
                self.known[block] = hashlib.sha256(self.key + block).digest()
            else:
                self.known[block] = siphash_2_4(self.key, block).ljust(32, b"\0")
        return self.known[block]


# Devices. A read answers with bytes, or with a fault: cause, place and how far it climbed. A write answers with None or a fault.


def higher(answer):
    if isinstance(answer, tuple):
        return answer[0], answer[1], min(answer[2] + 1, 255)
    return answer


class Layer:
    """What every layer does first: it looks at the number, then at the way."""

    def __init__(self, below):
        self.below = below

    def blocks(self):
        return self.below.blocks()

    def ways(self):
        return self.below.ways()

    def settle(self):
        return self.below.settle()

    def read(self, way, n):
        if n >= self.blocks():
            return 1, n, 0
        if way >= self.ways():
            return 2, way, 0
        return self.get(way, n)

    def write(self, n, block):
        if n >= self.blocks():
            return 1, n, 0
        return self.put(n, block)


class Memory(Layer):
    def __init__(self, region):
        self.region = region

    def blocks(self):
        return len(self.region)

    def ways(self):
        return 1

    def settle(self):
        return True

    def get(self, _way, n):
        return self.region[n]

    def put(self, n, block):
        self.region[n] = block


class Crooked(Layer):
    def __init__(self, bad, below):
        super().__init__(below)
        self.bad = {}
        for n, manner in bad[:16]:
            self.bad.setdefault(n, manner)

    def get(self, way, n):
        if self.bad.get(n) == "refuses":
            return 3, n, 0
        answer = self.below.read(way, n)
        if self.bad.get(n) == "flips" and isinstance(answer, bytes):
            return bytes([answer[0] ^ 1]) + answer[1:]
        return higher(answer)

    def put(self, n, block):
        if self.bad.get(n) == "refuses":
            return 3, n, 0
        if self.bad.get(n) == "keeps":
            return None
        return higher(self.below.write(n, block))


class Offset(Layer):
    def __init__(self, start, count, below):
        super().__init__(below)
        self.start, self.count = start, count

    def blocks(self):
        return min(self.count, max(self.below.blocks() - self.start, 0))

    def get(self, way, n):
        return higher(self.below.read(way, self.start + n))

    def put(self, n, block):
        return higher(self.below.write(self.start + n, block))


class Mirror(Layer):
    def __init__(self, first, second):
        self.first, self.second = first, second

    def blocks(self):
        return min(self.first.blocks(), self.second.blocks())

    def ways(self):
        return self.first.ways() + self.second.ways()

    def get(self, way, n):
        first = self.first.ways()
        return higher(self.first.read(way, n) if way < first else self.second.read(way - first, n))

    def put(self, n, block):
        first, second = self.first.write(n, block), self.second.write(n, block)
        return higher(first) if first and second else None

    def settle(self):
        answers = [self.first.settle(), self.second.settle()]
        return all(answers)


class Cache(Layer):
    def __init__(self, below):
        super().__init__(below)
        # each line None, or [number, count, bytes]
        self.lines = [None] * 8

    def get(self, way, n):
        for line in self.lines:
            if line and line[0] == n:
                return line[2]
        return higher(self.below.read(way, n))

    def put(self, n, block):
        for line in self.lines:
            if line and line[0] == n:
                line[1], line[2] = min(line[1] + 1, 255), block
                return
        if None in self.lines:
            at = self.lines.index(None)
        else:
            at = min(range(8), key=lambda i: (self.lines[i][1], self.lines[i][0]))
            self.below.write(self.lines[at][0], self.lines[at][2])
        self.lines[at] = [n, 1, block]

    def settle(self):
        for at, line in enumerate(self.lines):
            if line and self.below.write(line[0], line[2]) is None:
                self.lines[at] = None
        below = self.below.settle()
        return below and self.lines == [None] * 8


def pile(name, part, cards):
    """The pile that a name such as `offset(cache(mirror))` names, over the cards from left to right."""
    cards = iter(cards)

    def parsed(text):
        head, bracket, inner = text.partition("(")
        if not bracket:
            inner = {"card": "", "mirror": "card,card"}.get(head, "card")
        else:
            inner = inner[:-1]
        if head == "card":
            return next(cards)
        if head == "offset":
            return Offset(*part, parsed(inner))
        if head == "cache":
            return Cache(parsed(inner))
        depth = 0
        for at, character in enumerate(inner):
            depth += {"(": 1, ")": -1}.get(character, 0)
            if character == "," and depth == 0:
                first = parsed(inner[:at])
                return Mirror(first, parsed(inner[at + 1 :]))

    return parsed(name)


# The tree


def levels_of(blocks):
    """The widths of the levels, level 0 first."""
    widths = []
    while not widths or blocks > 1:
        blocks = -(-blocks // 16)
        widths.append(blocks)
    return widths


def start_of(blocks, level):
    return sum(levels_of(blocks)[level + 1 :])


def place(blocks, level, n):
    return start_of(blocks, level) + n // 16 ** (level + 1), n // 16**level % 16


# The volume. A call answers with None, with the number of a refusal, or with a tuple of all that it carries.


class Register:
    blocks, kind, root = 0, 0, bytes(32)

    def __str__(self):
        return f"register: {self.blocks} blocks, kind {self.kind}, root {self.root.hex()}"


class Stuck(Exception):
    pass


def passes(source, side, level, n, hash_, expected):
    last = (0, 0, 0)
    for way in range(source.ways()):
        answer = source.read(way, n)
        if isinstance(answer, bytes):
            if hash_.image(answer) == expected:
                return answer
            answer = (0, 0, 0)
        last = answer
    raise Stuck(51 if side == 2 else 52, side, level, n, last)


def walk(tree, hash_, blocks, root, n, record):
    expected = root
    for level in reversed(range(len(levels_of(blocks)))):
        number, cell = place(blocks, level, n)
        block = passes(tree, 2, level, number, hash_, expected)
        record[BLOCK * (level + 1) : BLOCK * (level + 2)] = block
        expected = block[32 * cell : 32 * cell + 32]
    return expected


def areas_check(blocks, n, block, record):
    if len(block) != BLOCK:
        return 11
    if len(record) != RECORD:
        return 12
    if n >= blocks:
        return 10
    return None


def fetch(store, tree, hash_, blocks, root, n, block, record):
    block[:], record[:] = ZERO, bytes(RECORD)
    try:
        expected = walk(tree, hash_, blocks, root, n, record)
        block[:] = passes(store, 1, 0, n, hash_, expected)
        record[:BLOCK] = block
    except Stuck as stuck:
        return stuck.args
    return None


def fitting(register, kind, store, tree):
    if register.blocks == 0:
        return 22
    if register.kind != kind:
        return 24
    if store.blocks() != register.blocks:
        return 23
    if tree.blocks() < sum(levels_of(register.blocks)):
        return 21
    return None


class Volume:
    def __init__(self, store, tree, hash_, number):
        self.store, self.tree, self.hash, self.number = store, tree, hash_, number
        self.open_, self.out, self.blocks, self.root = False, False, 0, b""

    def format(self, register):
        blocks = self.store.blocks()
        if self.open_:
            return 41
        if not 1 <= blocks <= 4096:
            return 20
        if self.tree.blocks() < sum(levels_of(blocks)):
            return 21
        level, levels = [ZERO] * blocks, []
        while not levels or len(level) > 1:
            cells = b"".join(map(self.hash.image, level))
            level = [cells[at : at + BLOCK].ljust(BLOCK, b"\0") for at in range(0, len(cells), BLOCK)]
            levels.append(level)
        for n in range(blocks):
            self.store.write(n, ZERO)
        for n, block in enumerate(block for level in reversed(levels) for block in level):
            self.tree.write(n, block)
        if not all([self.store.settle(), self.tree.settle()]):
            return 44
        register.blocks, register.kind, register.root = blocks, self.hash.kind, self.hash.image(levels[-1][0])
        return None

    def open(self, register):
        if self.open_:
            return 41
        refusal = fitting(register, self.hash.kind, self.store, self.tree)
        if refusal is None:
            self.open_, self.out, self.blocks, self.root = True, False, register.blocks, register.root
        return refusal

    def begin(self):
        if not self.open_:
            return 40
        if self.out:
            return 42
        self.out = True
        return None

    def read(self, n, block, record):
        if not self.open_:
            return 40
        refusal = areas_check(self.blocks, n, block, record)
        return refusal or fetch(self.store, self.tree, self.hash, self.blocks, self.root, n, block, record)

    def slip_check(self, number):
        if not self.open_:
            return 40
        return None if self.out and number == self.number else 43

    def write(self, number, n, block, record):
        refusal = self.slip_check(number) or areas_check(self.blocks, n, block, record)
        if refusal:
            return refusal
        record[:] = bytes(RECORD)
        try:
            walk(self.tree, self.hash, self.blocks, self.root, n, record)
        except Stuck as stuck:
            return stuck.args
        block, faults = bytes(block), []
        fault = self.store.write(n, block)
        if fault:
            faults.append((53, 1, 0, n, fault))
        image = self.hash.image(block)
        for level in range(len(levels_of(self.blocks))):
            at, cell = place(self.blocks, level, n)
            new = bytearray(record[BLOCK * (level + 1) : BLOCK * (level + 2)])
            new[32 * cell : 32 * cell + 32] = image
            fault = self.tree.write(at, bytes(new))
            if fault:
                faults.append((53, 2, level, at, fault))
            image = self.hash.image(bytes(new))
        self.root = image
        return faults[0] if faults else None

    def keep(self, number, register):
        refusal = self.slip_check(number)
        if refusal:
            return refusal
        if not all([self.store.settle(), self.tree.settle()]):
            return 44
        register.blocks, register.kind, register.root = self.blocks, self.hash.kind, self.root
        self.out = False
        return None

    def leave(self, number):
        refusal = self.slip_check(number)
        if refusal is None:
            self.open_ = self.out = False
        return refusal

    def shut(self):
        if not self.open_:
            return 40
        if self.out:
            return 42
        self.open_ = False
        return None


# The script


def short(data):
    return hashlib.sha256(bytes(data)).hexdigest()[:16]


def told(answer):
    if answer is None:
        return "accepted"
    if answer == "left out":
        return answer
    if isinstance(answer, int):
        return f"refused {answer}"
    number, side, level, block, fault = answer
    return f"refused {number}, side {side}, level {level}, block {block}, fault {', '.join(map(str, fault))}"


class Box:
    def __init__(self, number, name, digits):
        self.number, self.hash = number, Hash(name, digits)
        self.stranger = None
        self.orders = {"data": ("card", None), "tree": ("card", None)}
        self.cards = {(side, at): [0, 0, []] for side in self.orders for at in "123"}
        self.calls = []

    def set_up(self, words):
        head, *rest = words
        if head == "stranger":
            self.stranger = int(rest[0])
        elif head in self.orders:
            self.orders[head] = rest[0], tuple(map(int, rest[1:]))
        elif head == "card":
            self.cards[rest[0], rest[1]][:2] = int(rest[2]), int(rest[3]) if len(rest) > 3 else 0
        elif head == "bad":
            self.cards[rest[0], rest[1]][2].append((int(rest[2]), rest[3]))
        else:
            self.calls.append(words)

    def piles(self):
        answer = []
        for side, (name, part) in self.orders.items():
            cards = [Crooked(self.cards[side, at][2], Memory(self.regions[side, at])) for at in "123"]
            answer.append(pile(name, part, cards))
        return answer

    def areas(self, words, byte):
        lengths = dict(zip(words[::2], map(int, words[1::2])))
        return bytearray([byte]) * lengths.get("block", BLOCK), bytearray([255]) * lengths.get("record", RECORD)

    def play(self):
        """The lines that are printed for this box."""
        self.regions = {at: [bytes([fill]) * BLOCK] * blocks for at, (blocks, fill, _) in self.cards.items()}
        store, tree = self.piles()
        counts = [f"{name} {d.blocks()} blocks, {d.ways()} ways" for name, d in (("data", store), ("tree", tree))]
        lines = [f"box {self.number}: {'; '.join(counts)}"]
        self.volume, self.register = Volume(store, tree, self.hash, self.number), Register()
        # the places, each with the number of a slip or None; the stranger's volume takes back one slip of its number
        self.places = [self.stranger, None, None, None]
        looks = [words for words in self.calls if words[0] == "look"]
        calls = [words for words in self.calls if words[0] != "look"]
        for at, words in enumerate(calls):
            lines.append(self.made(words))
            after = calls[at + 1][0] if at + 1 < len(calls) else "format"
            if words[0] in ("format", "register", "keep") or after in ("format", "register"):
                lines.append(str(self.register))
        lines += self.left_over()
        for (side, at), region in self.regions.items():
            if region:
                lines.append(f"card {side} {at}: {short(b''.join(region))}")
        return lines + list(map(self.looked, looks))

    def left_over(self):
        lines, beside = [], self.stranger is not None
        for at, number in enumerate(self.places):
            if number is not None:
                lines.append(f"place {at}: left over, number {number}")
                if self.volume.leave(number) is not None:
                    assert beside and number == self.stranger
                    beside = False
        return lines

    def looked(self, words):
        n, (block, record) = int(words[1]), self.areas(words[2:], 255)
        store, tree = self.piles()
        answer = fitting(self.register, self.hash.kind, store, tree)
        answer = answer or areas_check(self.register.blocks, n, block, record)
        answer = answer or fetch(store, tree, self.hash, self.register.blocks, self.register.root, n, block, record)
        return f"look {n}: {told(answer)}, block {short(block)}, record {short(record)}"

    def made(self, words):
        head, *rest = words
        if head == "format":
            return f"format: {told(self.volume.format(self.register))}"
        if head == "register":
            return f"register: {told(self.set_register(int(rest[0]), int(rest[1]), bytes.fromhex(rest[2])))}"
        if head == "open":
            return f"open: {told(self.volume.open(self.register))}"
        if head == "shut":
            return f"shut: {told(self.volume.shut())}"
        if head == "read":
            block, record = self.areas(rest[1:], 255)
            answer = self.volume.read(int(rest[0]), block, record)
            return f"read {int(rest[0])}: {told(answer)}, block {short(block)}, record {short(record)}"
        return self.with_place(head, int(rest[0]), rest[1:])

    def set_register(self, blocks, kind, root):
        if not 1 <= blocks <= 4096 or kind == 0:
            return 25
        self.register.blocks, self.register.kind, self.register.root = blocks, kind, root
        return None

    def with_place(self, head, at, rest):
        number = self.places[at] if at < PLACES else None
        if head == "begin":
            free = at < PLACES and number is None
            answer = self.volume.begin() if free else "left out"
            if answer is None:
                self.places[at] = self.number
            return f"begin {at}: {told(answer)}"
        if head == "write":
            block, record = self.areas(rest[2:], int(rest[1]))
            answer = "left out" if number is None else self.volume.write(number, int(rest[0]), block, record)
            return f"write {at} {int(rest[0])}: {told(answer)}, record {short(record)}"
        answer = "left out"
        if number is not None:
            answer = self.volume.leave(number) if head == "leave" else self.volume.keep(number, self.register)
            if answer is None:
                self.places[at] = None
        return f"{head} {at}: {told(answer)}"


def report(text):
    boxes = []
    for line in text.split("\n"):
        words = line.partition("#")[0].split()
        if words and words[0] == "box":
            boxes.append(Box(int(words[1]), *words[2:]))
        elif words:
            boxes[-1].set_up(words)
    return "\n".join(line for box in boxes for line in box.play())


# Random scripts

ORDERS = [
    "card",
    "cache",
    "mirror",
    "mirror(cache,cache)",
    "cache(mirror)",
    "cache(mirror(mirror,card))",
    "offset",
    "cache(offset)",
    "cache(offset(mirror))",
    "cache(mirror(offset,offset))",
    "offset(mirror)",
    "offset(cache(mirror))",
    "offset(mirror(cache,cache))",
    "mirror(offset,offset)",
    "mirror(offset(cache),offset(cache))",
    "mirror(cache(offset),cache(offset))",
]


def random_side(draw, side, blocks):
    """A pile that shows this many blocks, over cards with bad blocks."""
    name = draw.choice(ORDERS)
    start = draw.randrange(5) if "offset" in name else 0
    lines = [f"{side} {name} {start} {blocks}" if "offset" in name else f"{side} {name}"]
    cards = 3 if "card)" in name else 2 if "mirror" in name else 1
    for at in range(1, cards + 1):
        more = draw.choice([0, 0, 3]) if "offset" in name else 0
        lines.append(f"card {side} {at} {start + blocks + more} {draw.choice([0, 0, 7, 200])}")
        for _ in range(draw.choice([0, 0, 0, 1, 3])):
            # on a tree rather at its end, since all that is under its top block is lost with it
            block = draw.randrange(start + (blocks // 3 if side == "tree" else 0), start + blocks + 2)
            lines.append(f"bad {side} {at} {block} {draw.choice(['refuses', 'flips', 'keeps'])}")
    return lines


def random_areas(draw):
    words = ""
    if draw.random() < 0.04:
        words += f" block {draw.choice([0, 1, 511, 513, 1024])}"
    if draw.random() < 0.04:
        words += f" record {draw.choice([0, 512, 2047, 2049])}"
    return words


def random_calls(draw, blocks):
    """A call, or a few that mostly come together."""
    n = draw.randrange(blocks + (draw.random() < 0.1))
    at = draw.choice([1] * 20 + [0, 2, 3, 4])
    chance = draw.random()
    if chance < 0.45:
        return [f"write {at} {n} {draw.choice([0, 1, 2, draw.randrange(256)])}{random_areas(draw)}"]
    if chance < 0.85:
        return [f"read {n}{random_areas(draw)}"]
    if chance < 0.92:
        return [f"keep {at}", "begin 1"]
    if chance < 0.94:
        return [f"keep {at}", "shut", "open", "begin 1"]
    if chance < 0.96:
        return [f"leave {at}", "format", "open", "begin 1"]
    if chance < 0.97:
        return [f"register {draw.choice([0, blocks, 4096, 4097])} {draw.choice([0, 1, 2, 3])} {draw.randbytes(32).hex()}"]
    return [draw.choice(["open", f"begin {at}", f"leave {at}", "shut", "format"])]


def random_box(draw):
    blocks = draw.choice([1, 5, 9, 16, 17, 20, 33, 60, 256, 257, 300])
    number = draw.randrange(3)
    lines = [f"box {number} {draw.choice(['sha256', 'siphash'])} {draw.randbytes(16).hex()}"]
    if draw.random() < 0.6:
        lines.append(f"stranger {draw.randrange(3)}")
    lines += random_side(draw, "data", blocks) + random_side(draw, "tree", sum(levels_of(blocks)) + draw.choice([0, 0, 0, 2, -1]))
    lines += ["format", "open", "begin 1"]
    for _ in range(draw.randrange(60)):
        lines += random_calls(draw, blocks)
    lines += [f"look {draw.randrange(blocks)}{random_areas(draw)}" for _ in range(draw.randrange(6))]
    return lines


def main():
    if sys.argv[1:2] == ["random"]:
        draw = random.Random(int(sys.argv[2]))
        print("\n".join(line for _ in range(5) for line in random_box(draw)))
    elif sys.argv[1:] == ["vectors"]:
        try_vectors(sys.stdin)
    else:
        print(report(sys.stdin.read()))


if __name__ == "__main__":
    main()
