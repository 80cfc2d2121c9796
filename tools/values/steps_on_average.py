#!/usr/bin/env python3
"""Prints how many steps the table of `call_trie` takes to find a node, on average over all nodes of a trie.

usage: tools/values/steps_on_average.py

Each trie has as many nodes as there may be, so its table is as full as it gets. The numbers and the rule are those of
crates/call_trie/src/table.rt. There is a line for each shape of tries, with the worst average over the sizes.
"""
import pathlib
import random
import sys

sys.dont_write_bytecode = True  # the modules are in the repository, and their compiled forms aren't
sys.path.insert(0, str(pathlib.Path(__file__).resolve().parents[1]))
from command_line import CommandLine  # noqa: E402

PARENT_FACTOR = 0xB3CC92D2C080C6B5
STEP_FACTOR = 0x5399EAB96E03949D
BUCKETS_PER_STEP = 2
SIZES = (100, 300, 1_000, 4_096, 10_000, 65_536, 262_144)
MASK = 2**64 - 1


def bucket_of(buckets, parent, function):
    both = (parent * PARENT_FACTOR + function) & MASK
    mixed = (both ^ (both >> 32)) * STEP_FACTOR & MASK
    return (mixed >> 32) * buckets >> 32


def steps_on_average(nodes):
    """A bucket's nodes are found in 1, 2, 3 .. steps."""
    buckets = BUCKETS_PER_STEP * len(nodes)
    sizes = {}
    for parent, function in nodes:
        bucket = bucket_of(buckets, parent, function)
        sizes[bucket] = sizes.get(bucket, 0) + 1
    return sum(size * (size + 1) // 2 for size in sizes.values()) / len(nodes)


def wide(size, each):
    """Each node has so many children, with the functions from 1 on. Nodes are numbered in breadth."""
    return [(at // each, at % each + 1) for at in range(size)]


def drawn(size):
    """A node goes on from any node so far, with one of 1,000 functions."""
    draw = random.Random(size)
    nodes = {}
    while len(nodes) < size:
        nodes[draw.randrange(len(nodes) + 1), draw.randrange(1, 1_001)] = None
    return list(nodes)


SHAPES = {
    "all called from one": lambda size: [(0, at + 1) for at in range(size)],
    "each sixteenth function called from one": lambda size: [(0, 16 * at + 5) for at in range(size)],
    "all called from node 1,000": lambda size: [(1_000, at + 1) for at in range(size)],
    "a recursion": lambda size: [(at, 1) for at in range(size)],
    "a chain of seven functions in turn": lambda size: [(at, at % 7 + 1) for at in range(size)],
    "a chain of distinct functions": lambda size: [(at, at + 1) for at in range(size)],
    "two from each": lambda size: wide(size, 2),
    "three from each": lambda size: wide(size, 3),
    "ten from each": lambda size: wide(size, 10),
    "as many from each as from the first": lambda size: wide(size, int(size**0.5)),
    "drawn": drawn,
}


def main():
    CommandLine(__doc__).parse_args()
    for shape, nodes in SHAPES.items():
        average, size = max((steps_on_average(nodes(size)), size) for size in SIZES)
        print(f"{average:.2f} with {size} nodes: {shape}")


if __name__ == "__main__":
    main()
