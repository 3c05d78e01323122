#!/usr/bin/env python3
"""Works out what the program `piles` prints, without any of this repository's code: whatever the order of offset, mirror and
cache, a pile is a dictionary of blocks for each way.

    python3 oracle/piles.py commands            makes the list of commands that the gate plays, crates/piles/stdin
    python3 oracle/piles.py < commands.txt      the answer, as crates/piles/stdout has it for that list

It takes good lists only.
"""
import random
import sys

ORDERS = [
    "cache(mirror(offset, offset))",
    "cache(offset(mirror))",
    "mirror(cache(offset), cache(offset))",
    "mirror(offset(cache), offset(cache))",
    "offset(cache(mirror))",
    "offset(mirror(cache, cache))",
]

# Each card has 16 blocks, and a pile shows the last 12 of them.
CARD, BLOCKS, WAYS = 16, 12, 2
HIDDEN = CARD - BLOCKS


def commands(draw):
    # Every block once, so that the lines of a cache overflow at once, and a refusal of each kind.
    lines = [f"read {way} {number}" for way in range(WAYS) for number in range(BLOCKS)]
    lines += [f"write {number} {number + 1}" for number in reversed(range(BLOCKS))]
    lines += [f"read {way} {number}" for way in range(WAYS) for number in range(BLOCKS)]
    lines += ["read 2 0", "read 0 12", "read 2 12", "write 12 1", f"read {2**64 - 1} {2**64 - 1}", f"write {2**64 - 1} 0", "settle"]
    while len(lines) < 360:
        # The lower blocks are written more often than others, and now and then a number or a way is one too far.
        number = min(draw.randrange(BLOCKS + 2), draw.randrange(BLOCKS + 2))
        way = draw.choice([0, 0, 0, 0, 1, 1, 1, 1, 2, 7])
        chance = draw.random()
        if chance < 0.5:
            lines.append(f"write {number} {draw.randrange(256)}")
        elif chance < 0.96:
            lines.append(f"read {way} {number}")
        else:
            lines.append("settle")
    return lines


def shown(block):
    return f"{block[0]}" if len(set(block)) == 1 else f"{block[0]} mixed"


def new_card(first):
    card = {number: bytes([first + number]) * 512 for number in range(CARD)}
    card[CARD - 1] = card[CARD - 1][:511] + bytes(1)
    return card


def answer(cards, words):
    if words[0] == "settle":
        return "clear"
    number = int(words[1] if words[0] == "write" else words[2])
    if number >= BLOCKS:
        return f"refused: cause 1, place {number}, climbed 0"
    if words[0] == "write":
        for card in cards:
            card[HIDDEN + number] = bytes([int(words[2])]) * 512
        return "done"
    way = int(words[1])
    if way >= WAYS:
        return f"refused: cause 2, place {way}, climbed 0"
    return shown(cards[way][HIDDEN + number])


def report(lines):
    cards = [new_card(100), new_card(200)]
    answers = [answer(cards, line.split()) for line in lines]
    for name, card in zip(["first", "second"], cards):
        answers.append(f"{name} card: " + ", ".join(shown(card[number]) for number in range(CARD)))
    return [line for order in ORDERS for line in [order, *answers]]


def main():
    if sys.argv[1:] == ["commands"]:
        print("\n".join(commands(random.Random(4711))))
    else:
        print("\n".join(report(sys.stdin.read().splitlines())))


if __name__ == "__main__":
    main()
