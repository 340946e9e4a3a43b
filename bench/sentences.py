#!/usr/bin/env python3
"""Writes random sentences of a grammar. Every second sentence has one token changed.

Usage: menhir --only-preprocess-u FILE.. | bench/sentences.py SEED COUNT DEPTH
"""
import random
import re
import sys


def grammar_of(text):
    """The start symbol, the tokens, and the productions of each rule, read from `menhir --only-preprocess-u`."""
    head, _, body = text.partition("\n%%\n")
    start = re.search(r"^%start (\w+)", head, re.M)[1]
    tokens = re.findall(r"^%token (?:<[^>]*> )?(\w+)", head, re.M)
    rules, name = {}, None
    for line in body.splitlines():
        if line.endswith(":") and not line.startswith((" ", "|")):
            name = line[:-1]
            rules[name] = []
        elif line.startswith("|") or line.startswith("  ") and not line.startswith("    "):
            line = re.sub(r"%prec \w+", "", line)
            words = [re.sub(r"^\w+ *=", "", it) for it in re.sub(r"\b\w+ *= *", "", line.lstrip("| ")).split()]
            rules[name].append(words)
    return start, tokens, rules


def heights_of(rules):
    """For each rule, the least height of a tree."""
    heights = {}
    changed = True
    while changed:
        changed = False
        for name, productions in rules.items():
            for words in productions:
                if all(it in heights for it in words if it in rules):
                    height = 1 + max([heights[it] for it in words if it in rules], default=0)
                    if height < heights.get(name, 1 << 30):
                        heights[name] = height
                        changed = True
    return heights


def sentence_of(start, rules, heights, depth):
    out, pending = [], [(start, depth)]
    while pending:
        symbol, left = pending.pop()
        if symbol not in rules:
            out.append(symbol)
            continue
        height = lambda words: max([heights[it] for it in words if it in rules], default=0)
        fitting = [it for it in rules[symbol] if height(it) < left]
        words = random.choice(fitting) if fitting else min(rules[symbol], key=height)
        pending += [(it, left - 1) for it in reversed(words)]
    return out


def changed(sentence, tokens):
    at = random.randrange(len(sentence))
    how = random.randrange(4)
    if how == 0:
        return sentence[:at] + sentence[at + 1 :]
    if how == 1:
        return sentence[:at] + [random.choice(tokens)] + sentence[at + 1 :]
    if how == 2:
        return sentence[:at] + [random.choice(tokens)] + sentence[at:]
    return sentence[:at] + sentence[at:][:2][::-1] + sentence[at:][2:]


def main():
    seed, count, depth = map(int, sys.argv[1:])
    random.seed(seed)
    start, tokens, rules = grammar_of(sys.stdin.read())
    heights = heights_of(rules)
    for number in range(count):
        sentence = sentence_of(start, rules, heights, depth)
        while len(sentence) > 2000:
            sentence = sentence_of(start, rules, heights, depth)
        print(" ".join(changed(sentence, tokens) if number % 2 else sentence))


main()
