#!/usr/bin/env python3
# Functions of crates/*/src/*.rt that are alike but for names and numbers: each group on a line, with how many tokens its bodies have.
#   tools/twins.py [TOP] [LEAST]    TOP: the repository (here); LEAST: the fewest tokens of a body that counts (16)
import glob, re, sys
from collections import defaultdict

KEPT = set('as break const else enum false fn for if impl in let loop match mut pub ref return self struct true use where while Some None Ok Err'.split())
top = sys.argv[1] if len(sys.argv) > 1 else '.'
least = int(sys.argv[2]) if len(sys.argv) > 2 else 16


def functions(text):
    for found in re.finditer(r'^[ ]*(?:pub(?:\(crate\))? )?(?:extern "C" )?fn (\w+)', text, re.M):
        start = text.find('\n{', found.end())
        inner = re.search(r'\n[ ]*\{\n', text[found.end():])
        if not inner:
            continue
        at = found.end() + inner.start() + 1
        indent = re.match(r'[ ]*', text[at:]).group(0)
        end = text.find('\n' + indent + '}', at)
        yield found.group(1), text[at:end]


def skeleton(body):
    body = re.sub(r'//[^\n]*', '', body)
    tokens = re.findall(r'b?"[^"]*"|[A-Za-z_]\w*|\d\w*|[^\s\w]', body)
    return tuple(t if t in KEPT or not re.match(r'[\w"b]', t) else ('0' if t[0].isdigit() else 'x') for t in tokens)


groups = defaultdict(list)
for path in sorted(glob.glob(top + '/crates/*/src/*.rt')):
    crate = path.split('/crates/')[1].split('/')[0]
    for name, body in functions(open(path).read()):
        form = skeleton(body)
        if len(form) >= least:
            groups[form].append(f'{crate}::{name}')
found = sorted((g for g in groups.items() if len(g[1]) > 1), key=lambda g: -len(g[0]))
for form, names in found:
    print(len(form), *names)
print(f'{len(found)} groups, {sum(len(n) for _, n in found)} functions')
