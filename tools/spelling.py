#!/usr/bin/env python3
"""Brings this repository's own names in specs/, proofs/ and clauses to the spelling of the installed Rattle: words in snake case.

usage: tools/spelling.py [FOLDER]

Run once, after port.py, at the top of a checkout whose files still have the older names (badSize, and-left). It goes by text: a name is one
that a file of specs/ or proofs/ declares; where a file takes the same name from a library, it stays there. Rust functions, strings and
types keep their names. A lemma whose name would fall together with another in one file gets _lem. It prints what it renamed.
"""

import glob
import os
import re
import sys

ROOT = sys.argv[1] if len(sys.argv) > 1 else "."
os.chdir(ROOT)
DECLARED = re.compile(r"^ *((?:(?:abbrev|unfoldable|pub|data|record|ruleset|mod) +)*)([^\s:(){}\[\],.;]+)(?= *(?:\(|\{|:))")
FIELD = re.compile(r"^ *(?:pub +)?([^\s:(){}\[\],.;]+) *:")
BIND = re.compile(r"[({]([^\s:(){}\[\],.;]+(?: +[^\s:(){}\[\],.;]+)*) *:")
TOKEN = re.compile(r"[^\s(){}\[\].,;`\"|]+")
OWN = set(os.listdir("crates"))


def crate_of(f):
    """crates/NAME/.. and tests/wrong/NAME/.."""
    parts = f.split("/")
    return parts[1] if parts[0] == "crates" else parts[2]


def turned(word):
    """The name in snake case; types (a capital first) keep their name, but a dash joins names as it did."""
    if re.match(r"^[A-Z]", word):
        return word
    out = re.sub(r"(?<=[a-z0-9₀-₉])([A-Z])", lambda m: "_" + m.group(1).lower(), word)
    return re.sub(r"(?<=\w)-(?=\w)", "_", out)


def antt_files():
    return sorted(f for f in glob.glob("crates/*/specs/**/*.antt", recursive=True) + glob.glob("crates/*/proofs/**/*.antt", recursive=True))


def read(f):
    with open(f, encoding="utf-8") as it:
        return it.read()


def code_of(line):
    """The line's code and its comment."""
    m = re.match(r"^(.*?)(--(?: .*|-.*)?)$", line) if re.match(r"^ *--( |-|$)", line) or " -- " in line else None
    return (m.group(1), m.group(2)) if m else (line, "")


def from_libraries(text):
    """Names that the file takes from a library that isn't this repository's."""
    out = set()
    for m in re.finditer(r"^(?:pub )?(?:ghost )?use ([^\s{;]+?)(?:\.\{([^}]*)\})?(?: as \S+)?;?$", text, re.M):
        path, names = m.group(1), m.group(2) or ""
        parts = path.split(".")
        if parts[0] == "Rattle" and len(parts) > 1 and parts[1] in OWN:
            continue
        for n in names.split(","):
            n = n.strip()
            if n:
                out.add(n.split(" as ")[-1].strip())
    return out


def alias_of_libraries(text):
    out = set()
    for m in re.finditer(r"^(?:pub )?use (\S+) as (\S+)$", text, re.M):
        parts = m.group(1).split(".")
        if not (parts[0] == "Rattle" and len(parts) > 1 and parts[1] in OWN):
            out.add(m.group(2))
    return out


files = antt_files()
texts = {f: read(f) for f in files}
names = set()
for f in files:
    walk = f.endswith("/Proof.antt")
    for line in texts[f].splitlines():
        code, _ = code_of(line)
        m = DECLARED.match(code)
        if m and not (walk and (" : tie." in code or m.group(2).endswith(("-spec", "-requires")))):
            names.add(m.group(2))
        for b in BIND.finditer(code):
            names.update(b.group(1).split())
names = {n for n in names if turned(n) != n and re.match(r"^[\w'₀-₉-]+$", n)}

# Lemmas that port.py has turned already, and the crates where a definition would fall together with them.
HAND = {"one_code": ("machine", "explainer", "promises"), "word_after": ("promises", "array_promises"), "at_first": ("ends", "promises"), "one_more": ("console_working",)}
COMPOUND = {"oneCode", "wordAfter", "atFirst", "oneMore"}

# what falls together in one file
taken = {}
clash = set()
for f in files:
    if f.endswith("/Proof.antt"):
        continue
    seen = set()
    for line in texts[f].splitlines():
        code, _ = code_of(line)
        if re.match(r"^(pub )?use ", code):
            code = code[code.index("{"):] if "{" in code else ""
        for m in TOKEN.finditer(code):
            before = code[m.start() - 1] if m.start() else " "
            if before != ".":
                seen.add(m.group(0))
    for n in seen & names:
        t = turned(n)
        if t in seen and t != n:
            clash.add((n, t, f))
        for o in seen & names:
            if o != n and turned(o) == t:
                clash.add((n, o, f))
special = {}
for n, o, f in sorted(clash):
    if "-" in n:
        special[n] = turned(n) + "_lem"
    elif "-" not in o and not (n in COMPOUND and o in HAND):
        print(f"by hand: {n} and {o} in {f}")
for n in sorted(special):
    print(f"falls together: {n} -> {special[n]}")
new = {n: special.get(n, turned(n)) for n in names}


def replace(code, table, aliases=()):
    def one(m):
        word = m.group(0)
        start = m.start()
        if word in table:
            before = code[:start]
            q = re.search(r"([^\s(){}\[\].,;]+)\.$", before)
            if q and q.group(1) in aliases:
                return word
            return table[word]
        return word

    return TOKEN.sub(one, code)


def comment(text, table):
    """In a comment a name in camel case anywhere, one with a dash only between backticks."""
    text = TOKEN.sub(lambda m: table[m.group(0)] if m.group(0) in table and "-" not in m.group(0) else m.group(0), text)
    return re.sub(r"`[^`]*`", lambda m: TOKEN.sub(lambda k: table.get(k.group(0), k.group(0)), m.group(0)), text)


def antt(text, f):
    held = from_libraries(text)
    hand = {k: k + "_lem" for k, crates in HAND.items() if crate_of(f) in crates}
    table = {k: v for k, v in (new | hand).items() if k not in held}
    aliases = alias_of_libraries(text)
    out = []
    for line in text.split("\n"):
        code, rest = code_of(line)
        m = re.match(r"^((?:pub )?use )([^\s{]+)(.*)$", code)
        if m:
            parts = m.group(2).split(".")
            if parts[0] == "Rattle" and len(parts) > 1 and parts[1] in OWN:
                code = m.group(1) + m.group(2) + replace(m.group(3), new | hand)
        else:
            code = replace(code, table, aliases)
        out.append(code + comment(rest, new))
    return "\n".join(out)


def rust(text):
    out = []
    for line in text.split("\n"):
        m = re.match(r"^( *)(//.*)$", line)
        if m:
            out.append(m.group(1) + comment(m.group(2), new))
            continue
        ghost = line.lstrip().startswith(("ghost use Rattle.", "requires", "ensures", "ghost "))
        pieces = re.split(r'("(?:[^"\\]|\\.)*")', line)
        for i in range(0, len(pieces), 2):
            table = {k: v for k, v in new.items() if "-" not in k or ghost}
            if line.lstrip().startswith("ghost use Rattle.std."):
                table = {}
            pieces[i] = replace(pieces[i], table)
        out.append("".join(pieces))
    return "\n".join(out)


def write(f, old, text):
    if text != old:
        with open(f, "w", encoding="utf-8") as it:
            it.write(text)


for f in files:
    write(f, texts[f], antt(texts[f], f))
for f in sorted(glob.glob("crates/*/src/**/*.rt", recursive=True)):
    t = read(f)
    write(f, t, rust(t))
for f in sorted(glob.glob("crates/*/must-fail/*.edit") + glob.glob("tests/wrong/*/*.edit")):
    t = read(f)
    kind, out = "", []
    for line in t.split("\n"):
        if line.startswith("file: "):
            kind = line
        if line.startswith(("old: ", "new: ")):
            line = line[:5] + (rust(line[5:]) if kind.endswith(".rt") else antt(line[5:], f))
        elif line.startswith("#"):
            line = comment(line, new)
        out.append(line)
    write(f, t, "\n".join(out))
for f in sorted(glob.glob("docs/*.md") + ["README.md"]):
    if os.path.exists(f) and os.path.basename(f) not in ("PORT.md",):
        t = read(f)
        out, block = [], False
        for line in t.split("\n"):
            block ^= line.startswith("```")
            out.append(line if block else re.sub(r"`[^`]*`", lambda m: TOKEN.sub(lambda k: new.get(k.group(0), k.group(0)), m.group(0)), line))
        write(f, t, "\n".join(out))
print(f"{len(new)} names")
