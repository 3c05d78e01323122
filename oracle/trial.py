#!/usr/bin/env python3
"""Works out what `simbox load` and `simbox drill` print, from docs/VOLUME.md, without any of this repository's code or a volume.

    python3 oracle/trial.py load < sheet.txt
    python3 oracle/trial.py drill < sheet.txt

The label's part of a load is oracle/label.py's. A drill is told by what has to come of each read: with one bad card every way but
that card's is good; with both, a block on whose path no way is left is refused. It takes good sheets only.
"""
import pathlib
import subprocess
import sys

# of each run: the manner of card 1, and that of card 2 at the reads
RUNS = [("refuses", ""), ("flips", ""), ("keeps", ""), ("refuses", "refuses"), ("flips", "flips"), ("keeps", "refuses")]


def tree_blocks(count):
    total = 0
    while True:
        count = -(-count // 16)
        total += count
        if count == 1:
            return total


def counts(sheet):
    words = [line.split() for line in sheet.splitlines() if line.strip() and not line.startswith("#")]
    blocks = next(int(w[1]) for w in words if w[0] == "blocks")
    return blocks, sum(w[0] == "sim" for w in words)


def load(sheet):
    blocks, sims = counts(sheet)
    print(f"format: {blocks} data blocks, {tree_blocks(blocks)} tree blocks")
    print(f"open\nbegin\nwrite: {sims} blocks\nkeep\nshut")
    print(f"open\nread: {blocks} blocks, each as written\nshut", flush=True)
    label = pathlib.Path(__file__).with_name("label.py")
    subprocess.run([sys.executable, label], input=sheet, text=True, check=True)


def drill(sheet):
    blocks, sims = counts(sheet)
    last = tree_blocks(blocks) - 1
    # the data blocks under the last tree block, which is of level 0
    group = range((blocks - 1) // 16 * 16, blocks)
    print(f"bad blocks: data 0, tree {last}")
    for first, second in RUNS:
        print(f"card 1 {first}" + (f", card 2 {second} at the reads" if second else ""))
        # a card that keeps its old block has the right one where nothing was written to it
        stale_tree = first != "keeps" or sims > group[0]
        stale_data = first != "keeps" or sims > 0
        refused = []
        for n in range(blocks) if second else []:
            if n in group and stale_tree:
                refused.append((n, 51, 2, last))
            elif n == 0 and stale_data:
                refused.append((n, 52, 1, 0))
        print(f"reads: {blocks - len(refused)} right, {len(refused)} refused")
        for n, number, side, block in refused:
            # the refusal of card 2, which mirror and cache have passed up; or bytes that did not match
            fault = (3, block, 2) if second == "refuses" else (0, 0, 0)
            print(f"block {n}: refusal {number}, side {side}, level 0, block {block}, fault {', '.join(map(str, fault))}")


{"load": load, "drill": drill}[sys.argv[1]](sys.stdin.read())
