#!/usr/bin/env python3
"""Writes a generated grammar of a given shape and size: shapes.py SHAPE SIZE >FILE. Without arguments, the script
prints each shape with its largest size within the limits. compare.sh times each shape at this size and at half of it:
the work may grow no faster than the file, or than the grammar that the file is expanded to."""
import sys

# The largest file that the program reads, in bytes.
MOST_BYTES = 16_777_216

HEAD = "%token A B EOF\n%start <unit> s\n"


def grammar(rules, declarations=""):
    return HEAD + declarations + "%%\n" + rules


def lines(form, count):
    return "".join(form.format(it, it + 1, it - 1) for it in range(count))


def until(most, form):
    """As many lines as fit into the given number of bytes."""
    texts, size, number = [], 0, 0
    while size < most:
        texts.append(form.format(number))
        size += len(texts[-1])
        number += 1
    return "".join(texts[:-1])


def inline_chain(size):
    """Inline rules that each have only the next rule."""
    return grammar("s: a0 EOF { () }\n" + lines("%inline a{0}: a{1} {{ () }}\n", size) + f"%inline a{size}: A {{ () }}\n")


def inline_chain_unlucky(size):
    """Inline rules that each have only the previous rule, and that are found in rising order."""
    half = size // 2
    first = " ".join(f"a{it}" for it in range(half))
    second = " ".join(f"a{it}" for it in range(half, size))
    return grammar(f"s: p q EOF {{ () }}\np: {first} {{ () }}\nq: {second} {{ () }}\n%inline a0: A {{ () }}\n"
                   + "".join(f"%inline a{it}: a{it - 1} {{ () }}\n" for it in range(1, size)))


def cycle_far(size):
    """A chain of inline rules that ends in a cycle of one rule."""
    return grammar("s: a0 EOF { () }\n" + lines("%inline a{0}: a{1} {{ () }}\n", size) + f"%inline a{size}: a{size} | A {{ () }}\n")


def cycle_long(size):
    """A chain of inline rules that leads to a cycle of the same length."""
    half = size // 2
    return grammar("s: a0 EOF { () }\n" + lines("%inline a{0}: a{1} {{ () }}\n", size) + f"%inline a{size}: a{half} | A {{ () }}\n")


def cycle_from_many(size):
    """Inline rules that each lead into one chain, which ends in a cycle."""
    half = size // 2
    names = " | ".join(f"b{it}" for it in range(half))
    return grammar(f"s: {names} {{ () }}\n" + "".join(f"%inline b{it}: a{it} {{ () }}\n" for it in range(half))
                   + lines("%inline a{0}: a{1} {{ () }}\n", half) + f"%inline a{half}: a{half} {{ () }}\n")


def cycles_meet(size):
    """Self-cycles of inline rules, each of which leads to the next, after a chain of inline rules."""
    half = size // 2
    return grammar("s: c EOF { () }\nc: " + " | ".join(f"x{it}" for it in range(half)) + " { () }\n"
                   + "".join(f"%inline x{it}: x{it + 1} {{ () }} | A {{ () }}\n" for it in range(half))
                   + f"%inline x{half}: y0 {{ () }}\n" + lines("%inline y{0}: y{1} {{ () }} | y{0} {{ () }}\n", half) + f"%inline y{half}: A {{ () }}\n")


def words(count):
    """The given number of different words, each of three tokens out of thirty."""
    return [f"T{it % 30} T{it // 30 % 30} T{it // 900}" for it in range(count)]


THIRTY = "%token " + " ".join(f"T{it}" for it in range(30)) + "\n"


def pass_through(size):
    """A long list of alternatives that a chain of inline rules passes on unchanged."""
    links = size // 2
    return grammar("s: a0 EOF { () }\n" + lines("%inline a{0}: a{1} {{ () }}\n", links) + f"%inline a{links}: "
                   + " | ".join(f"{word} {{ () }}" for word in words(size - links)) + "\n", THIRTY)


def passed_on(size, link):
    """A chain of inline rules of the form `link`, with a long list of alternatives at its end."""
    links = size // 10
    return grammar("s: a0 EOF { () }\n" + lines(link, links) + f"%inline a{links}: " + " | ".join(f"{word} {{ () }}" for word in words(size - links)) + "\n", THIRTY)


def pass_on_longer(size):
    """A long list of alternatives; each link of a chain appends a token: the result grows with the size squared."""
    return passed_on(size, "%inline a{0}: a{1} A {{ () }}\n")


def pass_on_in_front(size):
    """The same, but each link puts a token in front."""
    return passed_on(size, "%inline a{0}: A a{1} {{ () }}\n")


def pass_on_between(size):
    """The same, but each link puts a token in front and a token at the end."""
    return passed_on(size, "%inline a{0}: A a{1} B {{ () }}\n")


def pass_on_more(size):
    """Each link appends a token and adds an alternative: each alternative that it passes on has another length."""
    return grammar("s: a0 EOF { () }\n" + lines("%inline a{0}: a{1} A {{ () }} | B {{ () }}\n", size) + f"%inline a{size}: A {{ () }}\n")


def many_then_one(size):
    """An inline rule with many alternatives, followed by many inline rules with one alternative."""
    links = size // 10
    names = " ".join(f"a{it}" for it in range(links))
    return grammar(f"s: l {names} EOF {{ () }}\n%inline l: " + " | ".join(f"{word} {{ () }}" for word in words(size - links)) + "\n"
                   + "".join(f"%inline a{it}: A {{ () }}\n" for it in range(links)), THIRTY)


def inline_doubles(size):
    """Inline rules that double the number of alternatives, `size` times."""
    return grammar("s: a0 EOF { () }\n" + lines("%inline a{0}: A a{1} {{ () }} | B a{1} {{ () }}\n", size) + f"%inline a{size}: A {{ () }}\n")


def inline_wide(size):
    """One inline rule with many inline rules on its right side, which all use one further inline rule."""
    names = " ".join(f"a{it}" for it in range(size))
    return grammar(f"s: w EOF {{ () }}\n%inline w: {names} {{ () }}\n" + "".join(f"%inline a{it}: b {{ () }}\n" for it in range(size)) + "%inline b: A { () }\n")


def terms_double(size):
    """An actual that doubles at each step."""
    return grammar("s: d0(A) EOF { () }\n" + lines("d{0}(x): d{1}(pair(x, x)) {{ () }}\n", size) + f"d{size}(x): x {{ () }}\n")


def terms_grow(size):
    """A rule that calls itself with a larger actual, in a file with a long comment."""
    return grammar("s: d(A) EOF { () }\nd(x): x { () } | d(pair(x, x)) { () }\n" + "(* " + "x" * size + " *)\n")


def terms_many(size):
    """The given number of instances of one rule."""
    return grammar("s: p EOF { () }\np: " + " | ".join(f"r(t{it}) {{ () }}" for it in range(size)) + "\nr(x): x { () }\n"
                   + lines("t{0}: A {{ () }}\n", size))


def deep_actual(size):
    """One actual of the given depth."""
    return grammar("s: " + "option(" * (size - 1) + "A" + ")" * (size - 1) + " EOF { () }\n")


def deep_actuals(size):
    """Many actuals of depth 100."""
    one = "option(" * 100 + "A" + ")" * 100
    return grammar("s: A EOF { () }\n" + "".join(f"r{it}: {one} {{ () }}\n" for it in range(size // (len(one) + 20))))


def wide_actual(size):
    """A rule with many formals, and one use of this rule."""
    return grammar("s: f(" + ", ".join(["A"] * size) + ") EOF { () }\nf(" + ", ".join(f"x{it}" for it in range(size)) + "): x0 { () }\n")


def long_fault(size):
    """A token with many arguments, which all denote a name of 900 bytes: the fault's name is too long to write."""
    name = "n" * 900
    return grammar(f"s: d({name}) EOF {{ () }}\n{name}: A {{ () }}\nd(x): A(" + ", ".join(["x"] * size) + ") { () }\n")


def wide_nested(size):
    """Rules with one actual of nested pairs each, of up to 800,000 bytes."""
    text = "A"
    while len(text) * 2 + 8 < min(size, 800_000):
        text = f"pair({text},{text})"
    return grammar("s: A EOF { () }\n" + "".join(f"r{it}: {text} {{ () }}\n" for it in range(max(1, size // len(text)))))


def modifiers(size):
    """A token with many modifiers `?`."""
    return grammar("s: A" + "?" * size + " EOF { () }\n")


def long_side(size):
    """One right side with the given number of symbols."""
    return grammar("s: " + "A " * size + "EOF { () }\n")


def many_alternatives(size):
    """One rule with the given number of alternatives."""
    return grammar("s: A EOF { () }\n" + "| A A EOF { () }\n" * size)


def small_rules(size):
    return grammar("s: A EOF { () }\n" + until(size, "r{}: A {{ () }}\n"))


def reached_rules(size):
    """Rules that are all reachable from the first rule."""
    return grammar("s: r0 EOF { () }\n" + lines("r{0}: A r{1} {{ () }}\n", size) + f"r{size}: A {{ () }}\n")


def twice_at_the_end(size):
    """The last rule has the name of the first rule."""
    return small_rules(size - 100) + "r0: A { () }\n"


def unknown_at_the_end(size):
    return small_rules(size - 100) + "last: nowhere { () }\n"


def long_names(size):
    """Rules with names of 900 bytes."""
    return grammar("s: A EOF { () }\n" + until(size, "n" * 900 + "{}: A {{ () }}\n"))


def long_name(size):
    return grammar("s: A EOF { () }\n" + "n" * size + ": A { () }\n")


def like_names(size):
    """Long names that differ only at their ends, each used by the rule before."""
    long = "n" * 300
    return grammar(f"s: {long}0 EOF {{ () }}\n" + "".join(f"{long}{it}: A {long}{it + 1} {{ () }}\n" for it in range(size)) + f"{long}{size}: A {{ () }}\n")


def many_tokens(size):
    return grammar("s: A EOF { () }\n", until(size, "%token T{}\n"))


def many_levels(size):
    """Many declarations of levels."""
    return grammar("s: A EOF { () }\n", until(size, "%left L{}\n"))


def levels_twice(size):
    return grammar("s: A EOF { () }\n", until(size - 20, "%nonassoc L{}\n") + "%left L0\n")


def used_levels(size):
    """Many rules, each with a level of its own."""
    return grammar("s: A EOF { () }\n" + until(size // 2, "r{}: A {{ () }} %prec L{}\n".replace("L{}", "L{0}").replace("r{}", "r{0}")), until(size // 2, "%left L{}\n"))


def many_starts(size):
    """The given number of start symbols, each with a rule."""
    return grammar("s: A EOF { () }\n" + lines("t{0}: A EOF {{ () }}\n", size), lines("%start <unit> t{0}\n", size))


def starts_twice(size):
    return grammar("s: A EOF { () }\n", until(size, "%start <unit> s\n"))


def many_types(size):
    return grammar("s: A EOF { () }\n", until(size, "%type <int> t{}\n"))


def nested_comments(size):
    return grammar("s: A EOF { () }\n" + "(*" * (size // 4) + "*)" * (size // 4) + "\n")


def open_comments(size):
    return grammar("s: A EOF { () }\n" + "(*" * (size // 2))


def nested_braces(size):
    return grammar("s: A EOF " + "{" * (size // 2) + "}" * (size // 2) + "\n")


def nested_parentheses(size):
    return grammar("s: A EOF {" + "(" * (size // 2) + ")" * (size // 2) + "}\n")


def long_code(size):
    return grammar("s: A EOF { " + 'f "x" (* y *) ' * (size // 14) + "}\n")


def open_strings(size):
    return grammar("s: A EOF { " + '"' * size + "}\n")


def many_quotes(size):
    return grammar("s: A EOF { " + "' " * (size // 2) + "}\n")


def bars(size):
    """Quoted strings with many prefixes of their closing mark."""
    return grammar("s: A EOF { {" + "a" * 1000 + "|" + ("|" + "a" * 999) * (size // 1000) + " }\n")


def groups(size):
    """Many right sides that share an action."""
    return grammar("s: A EOF { () }\nr: " + "A | " * (size // 4) + "B { () }\n")


# Each shape with its largest size: a number of instances or links, or a number of bytes.
SHAPES = {
    inline_chain: 19_000, inline_chain_unlucky: 19_000, cycle_far: 19_000, cycle_long: 19_000, cycle_from_many: 19_000, cycles_meet: 19_000,
    pass_through: 19_000, pass_on_longer: 6_000, pass_on_in_front: 6_000, pass_on_between: 6_000, pass_on_more: 3_000, many_then_one: 6_000, inline_doubles: 14, inline_wide: 9_900, terms_double: 19_000, terms_grow: 16_000_000, terms_many: 6_000,
    deep_actual: 1_000, deep_actuals: MOST_BYTES - 1000, wide_actual: 1_000_000, long_fault: 1_000_000, wide_nested: MOST_BYTES - 1000, modifiers: 16_000_000,
    long_side: 8_000_000, many_alternatives: 900_000, small_rules: MOST_BYTES - 1000, reached_rules: 19_000, twice_at_the_end: MOST_BYTES - 1000,
    unknown_at_the_end: MOST_BYTES - 1000, long_names: MOST_BYTES - 1000, long_name: MOST_BYTES - 1000, like_names: 19_000,
    many_tokens: MOST_BYTES - 1000, many_levels: MOST_BYTES - 1000, levels_twice: MOST_BYTES - 1000, used_levels: MOST_BYTES - 1000, many_starts: 19_000, starts_twice: MOST_BYTES - 1000,
    many_types: MOST_BYTES - 1000, nested_comments: MOST_BYTES - 1000, open_comments: MOST_BYTES - 1000, nested_braces: MOST_BYTES - 1000,
    nested_parentheses: MOST_BYTES - 1000, long_code: MOST_BYTES - 1000, open_strings: MOST_BYTES - 1000, many_quotes: MOST_BYTES - 1000,
    bars: MOST_BYTES - 20_000, groups: MOST_BYTES - 1000,
}

if len(sys.argv) > 2:
    shape = {shape.__name__: shape for shape in SHAPES}[sys.argv[1]]
    sys.stdout.write(shape(int(sys.argv[2])))
else:
    for shape, most in SHAPES.items():
        print(shape.__name__, most)
