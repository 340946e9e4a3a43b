#!/usr/bin/env python3
"""Prints a random sentence of an expression grammar for each given seed, computed from the definitions alone.

The draws are the numbers of PCG's 32-bit generator (O'Neill 2014), with the seed expanded as in the crate `rand_core`.
Each draw chooses among the productions with which the sentence can still end within LENGTH tokens.

    random_sentences.py LENGTH SEED..

The tests of random sentences expect this output."""
import sys

MULTIPLIER, INCREMENT, MASK = 6364136223846793005, 11634580027462260723, 2**64 - 1
PRODUCTIONS = [("main", "e EOF"), ("e", "e PLUS t"), ("e", "t"), ("t", "t TIMES INT"), ("t", "INT")]
LEAST = {"main": ["INT", "EOF"], "e": ["INT"], "t": ["INT"]}
MOST_DRAWS = 10_000


def output(state):
    word, rotation = ((state >> 18 ^ state) >> 27) & 0xFFFFFFFF, state >> 59
    return (word >> rotation | word << (32 - rotation)) & 0xFFFFFFFF


def draws(seed):
    halves = []
    for _ in range(4):
        seed = (seed * MULTIPLIER + INCREMENT) & MASK
        halves.append(output(seed))
    state, increment = halves[0] | halves[1] << 32, (halves[2] | halves[3] << 32) | 1
    state = ((state + increment) * MULTIPLIER + increment) & MASK
    while True:
        yield output(state)
        state = (state * MULTIPLIER + increment) & MASK


def sentence(seed, length):
    written, pending, numbers = [], ["main"], draws(seed)
    least = lambda symbols: sum(len(LEAST.get(symbol, [symbol])) for symbol in symbols)
    for made in range(10**9):
        while pending and pending[0] not in LEAST:
            written.append(pending.pop(0))
        if not pending:
            return written
        symbol = pending.pop(0)
        room = length - len(written) - least(pending)
        candidates = [side.split() for left, side in PRODUCTIONS if left == symbol and least(side.split()) <= room]
        pending[:0] = candidates[next(numbers) % len(candidates)] if made < MOST_DRAWS else LEAST[symbol]


for seed in sys.argv[2:]:
    print("main: " + " ".join(sentence(int(seed), int(sys.argv[1]))))
