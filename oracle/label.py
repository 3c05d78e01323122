#!/usr/bin/env python3
"""Works out the report of `simbox label`, and the cards of `simbox images`, without any of this repository's code.

    python3 oracle/label.py < sheet.txt
    python3 oracle/label.py DATA TREE < sheet.txt      writes the two cards besides

SHA-256 is Python's hashlib; SipHash-2-4 is libsodium's crypto_shorthash (Debian's libsodium23, by ctypes),
which only a sheet with that hash asks for. The SIM block and the tree follow docs/SHEET.md and docs/TREE.md.
It takes good sheets only.
"""
import ctypes
import ctypes.util
import hashlib
import sys


def salted_sha256(salt):
    """The cell of a block: the digest of the salt and then the block."""
    return lambda block: hashlib.sha256(salt + block).digest()


def siphash(key):
    """The cell of a block: the 8 bytes of its hash, and zeros."""
    sodium = ctypes.CDLL(ctypes.util.find_library("sodium") or "libsodium.so.23")
    assert sodium.sodium_init() >= 0 and sodium.crypto_shorthash_bytes() == 8

    def image(block):
        out = ctypes.create_string_buffer(8)
        sodium.crypto_shorthash(out, block, ctypes.c_ulonglong(len(block)), key)
        return out.raw + bytes(24)

    return image


# by its name on the sheet: its kind, and how it is made from its 16 bytes
HASHES = {"sha256": (1, salted_sha256), "siphash": (2, siphash)}


def sim_block(identity, key_index, sequence):
    head = identity.encode().ljust(20, b"\0") + key_index.to_bytes(4, "little") + sequence.to_bytes(8, "little")
    return head.ljust(512, b"\0")


def levels_over(image, blocks):
    """All levels, level 0 first."""
    levels = []
    while not levels or len(blocks) > 1:
        cells = b"".join(image(b) for b in blocks)
        blocks = [cells[i : i + 512].ljust(512, b"\0") for i in range(0, len(cells), 512)]
        levels.append(blocks)
    return levels


def main():
    head, sims = {}, []
    for line in sys.stdin:
        words = line.split()
        if not words or line.startswith("#"):
            continue
        if words[0] == "sim":
            sims.append((words[1], int(words[2]), int(words[3])))
        else:
            head[words[0]] = words[1:]
    name, digits = head["hash"]
    kind, made = HASHES[name]
    image, count = made(bytes.fromhex(digits)), int(head["blocks"][0])
    data = [sim_block(*s) for s in sims] + [bytes(512)] * (count - len(sims))
    levels = levels_over(image, data)
    print(f"tray {int(head['tray'][0])}: SIMs {len(sims)}, blocks {count}")
    for n, (identity, key_index, sequence) in enumerate(sims):
        print(f"block {n}: identity {identity}, key {key_index}, sequence {sequence}")
    print(f"tree: levels {len(levels)}, blocks {sum(map(len, levels))}")
    print(f"label: kind {kind}, root {image(levels[-1][0]).hex()}")
    if len(sys.argv) == 3:
        cards = [data, [block for level in reversed(levels) for block in level]]
        for path, blocks in zip(sys.argv[1:], cards):
            with open(path, "wb") as card:
                card.write(b"".join(blocks))


main()
