#!/usr/bin/env python3
"""Holds include/dushvaneth.h against what it tells of, so that they can't drift:

- the entry points' signatures in crates/dushvaneth/src: names, and number, order, names and widths of the arguments
- docs/REFUSALS.md: a constant for each number, with the table's plain words
- itself: each function's comment says which numbers it returns

    header.py           the last line is 'N passed, M failed'
    header.py pairs     prints what may be returned, in C: each function with the set of its numbers, as bits"""

import glob
import os
import re
import sys

ROOT = os.path.join(os.path.dirname(os.path.abspath(__file__)), "../..")
PLAIN = {"u8": "uint8_t", "u32": "uint32_t", "u64": "uint64_t", "usize": "size_t", "Response": "dushvaneth_response"}
# `register` is a word of C's own; the panel's registers are lent as what they are called in C, the panel
CALLED = {"register": "reg", "registers": "panel"}
counts = {True: 0, False: 0}


def read(name):
    with open(os.path.join(ROOT, name), encoding="utf-8") as f:
        return f.read()


def hold(what, held):
    counts[held] += 1
    if not held:
        print(what)


def flat(comment):
    """A comment's words, without the stars of its lines."""
    return " ".join(re.sub(r"^\s*\* ?", "", re.sub(r"^/\*|\*/$", "", comment.strip()), flags=re.M).split())


def declared(header):
    """What C sees: name -> (type returned, [(type, name)], comment above)."""
    found = {}
    for comment, kind, name, words in re.findall(r"(/\*(?:(?!\*/).)*\*/)\n(\w+) (dushvaneth_\w+)\(([^;{]*)\);", header, re.S):
        arguments = [re.fullmatch(r"(.*?[ *])(\w+)", " ".join(a.split())).groups() for a in words.split(",")]
        found[name] = (kind, [(a.strip(), b) for a, b in arguments], flat(comment))
    return found


def argument(word, header_names):
    """An argument in Rattle as the one or two that C lends."""
    name, kind = (part.strip() for part in word.split(":", 1))
    lent = re.fullmatch(r"&(mut )?\[(\w+)\]", kind)
    if name not in header_names:
        name = CALLED.get(name, name)
    if not lent:
        return [(PLAIN.get(kind, kind), name)]
    return [(("" if lent[1] else "const ") + PLAIN.get(lent[2], lent[2]) + " *", name), ("size_t", name + "_length")]


def signatures(header):
    declarations = declared(header)
    entries = {}
    for file in sorted(glob.glob(os.path.join(ROOT, "crates/dushvaneth/src/*.rt"))):
        for name, words, kind in re.findall(r'pub extern "C" fn (\w+)\(([^)]*)\) -> (\w+)', read(file)):
            known = [b for _, b in declarations.get(name, (0, [], 0))[1]]
            lent = [argument(a, known) for a in words.split(",") if a.strip()]
            entries[name] = (PLAIN.get(kind, kind), [x for a in lent for x in a])
    for name in sorted(set(declarations) | set(entries)):
        here, there = declarations.get(name, ())[:2], entries.get(name)
        hold(f"{name}: the header has\n  {here}\nthe entry point\n  {there}", here == there)
    return declarations


def rows(section):
    found = []
    for number, name, words, also in re.findall(r"^\| (\d+) \| `([A-Z]\w+)` \| (.*?) \| *(.*?) *\|$", section, re.M):
        found.append((int(number), name, words.replace("`", ""), also.replace("`", "")))
    return found


def refusals(header):
    machine, array = read("docs/REFUSALS.md").split("## The array of three-state cells")
    constants = {}
    for comment, name, number in re.findall(r"(/\*(?:(?!\*/).)*\*/)\s+DUSHVANETH_REFUSED_(\w+) = (\d+)", header, re.S):
        constants.setdefault(int(number), (name, flat(comment)))
    of_array = flat(re.search(r"/\* ---- the array.*?\*/", header, re.S)[0])
    told = rows(machine)
    for number, name, words, also in told + rows(array):
        constant, comment = constants.get(number, ("nothing", ""))
        if (number, name, words, also) in told or number not in [row[0] for row in told]:
            upper = re.sub(r"(?<=[a-z])(?=[A-Z])", "_", name).upper()
            hold(f"{number} is {constant}, not {upper}", constant == upper)
            hold(f"{number}: the comment is\n  {comment}\nthe table\n  {words}", comment.startswith(words) and also in comment)
        else:
            hold(f"{number} of the array: its comment hasn't\n  {words}", words in of_array)
    numbers = {row[0] for row in told + rows(array)}
    hold(f"the header has the numbers {sorted(constants)}", set(constants) == numbers)
    return numbers


def returned(comment):
    """The numbers behind 'Returns'; 32 and more are no refusals' numbers."""
    numbers = set()
    for low, high in re.findall(r"\b(\d+)(?: to (\d+))?\b", comment.partition("Returns")[2]):
        numbers |= {n for n in range(int(low), int(high or low) + 1) if 0 < n < 32}
    return numbers


def main():
    header = read("include/dushvaneth.h")
    if sys.argv[1:] == ["pairs"]:
        for name, (_, _, comment) in declared(header).items():
            print(f'{{"{name.partition("_")[2]}", {sum(1 << n for n in returned(comment) | {0})}u}},')
        return 0
    declarations = signatures(header)
    known = refusals(header)
    for name, (_, _, comment) in declarations.items():
        numbers = returned(comment)
        hold(f"{name}: its comment says the numbers {sorted(numbers)}", bool(numbers) and numbers <= known)
    print(f"{counts[True]} passed, {counts[False]} failed")
    return counts[False]


sys.exit(1 if main() else 0)
