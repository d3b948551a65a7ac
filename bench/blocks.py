#!/usr/bin/env python3
"""Nanoseconds for a block that is passed to another thread and given back there, in turn for each allocator.

    bench/blocks.py [BLOCKS] [RUNS]

These are the lent blocks of crates/timed, and malloc and free of glibc and, where they are installed, of jemalloc and
mimalloc, each with BLOCKS blocks (default 1,000,000). The least time by the clock of RUNS runs (default 7).
"""
from timing import allocators, compiled, in_turn, numbers, timed


def measured(blocks=1_000_000, runs=7):
    """By allocator, nanoseconds a block."""
    commands = {"lent": [timed("blocks", "1000"), "blocks"], **allocators([compiled("malloc_blocks")])}
    least = in_turn(runs, *[[*words, str(blocks)] for words in commands.values()])
    return {name: 1e9 * spent.clock / blocks for name, spent in zip(commands, least)}


def main():
    for name, spent in measured(*numbers(__doc__, 1_000_000, 7)).items():
        print(f"{name:<10} {spent:7.1f} ns a block")


if __name__ == "__main__":
    main()
