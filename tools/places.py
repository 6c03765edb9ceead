#!/usr/bin/env python3
"""Lists the places of docs/DESIGN-PASS.md in crates/*/src and crates/*/proofs: tools/places.py [FOLDER]

FOLDER is a checkout, this one if none is given. Each line is a point, a file with its line, and what stands there. At the
end comes a count for each point."""
import collections
import glob
import os
import re
import sys

top = sys.argv[1] if len(sys.argv) > 1 else os.path.join(os.path.dirname(os.path.abspath(__file__)), '..')
os.chdir(top)

places = collections.OrderedDict()


def found(point, path, line, text):
    places.setdefault(point, []).append((path, line, ' '.join(text.split())[:100]))


def line_of(text, offset):
    return text.count('\n', 0, offset) + 1


def without_comments(text):
    """The text with each comment as blanks, so that offsets and lines stay."""
    return re.sub(r'//[^\n]*', lambda m: ' ' * len(m.group()), text)


def block(text, start):
    """The offset after the closing brace of the block that opens at or after start."""
    depth = 0
    for i in range(text.index('{', start), len(text)):
        depth += {'{': 1, '}': -1}.get(text[i], 0)
        if depth == 0:
            return i + 1
    return len(text)


def functions(text):
    """Each function: its name, its offset, its head up to the contract, its contract, its body."""
    for m in re.finditer(r'^ *(?:pub(?:\(crate\))? )?(?:extern "C" )?fn (\w+)', text, re.M):
        body = re.compile(r'^ *\{(?:\}| *$)|\{$', re.M).search(text, m.end())
        one = re.compile(r'^[^\n]*\{[^\n]*\n', re.M).match(text, m.start())
        opening = body.end() - 1 if body else len(text)
        contract = re.compile(r'^ *(?:requires|ensures)', re.M).search(text, m.end(), opening)
        head = text[m.start():contract.start() if contract else opening]
        yield m.group(1), m.start(), head, text[contract.start():opening] if contract else '', text[opening:block(text, opening)]


shapes = collections.defaultdict(list)
facts = collections.defaultdict(list)
for path in sorted(glob.glob('crates/*/src/*.rt')):
    text = without_comments(open(path, encoding='utf-8').read())
    for m in re.finditer(r'^(?:pub(?:\(crate\))? )?enum (\w+)[^{]*', text, re.M):
        inner = text[m.end() + 1:block(text, m.start()) - 1]
        variants = re.findall(r'^    (\w+)', inner, re.M)
        if len(variants) == 2 or 'Refused' in variants:
            found('1 enums of two variants, or with one that refuses', path, line_of(text, m.start()), m.group() + ', '.join(variants))
    for m in re.finditer(r'^ +(?:pub )?\w+: bool,', text, re.M):
        found('1 flags in structs', path, line_of(text, m.start()), m.group())
    for m in re.finditer(r'^(?:pub(?:\(crate\))? )?const \w+: u(?:8|64) = [^;]*;', text, re.M):
        found('1 numbers as constants', path, line_of(text, m.start()), m.group())
    for m in re.finditer(r'\b(?:number|refused|refusal): u(?:8|64)\b|(?:Refused|RefusedAt|Record|Nothing)\((?:Part, |usize, )?u8', text):
        found('1 refusals as numbers', path, line_of(text, m.start()), m.group())
    for m in re.finditer(r'\bwhile (?!let)[^{]*|\bloop\b', text):
        found('3 loops', path, line_of(text, m.start()), m.group())
    for m in re.finditer(r'^impl.*\b(?:PartialEq|Eq|PartialOrd|Ord|Clone|Copy|Display|Debug)\b.* for .*', text, re.M):
        found('4 equality, order, copying, printing by hand', path, line_of(text, m.start()), m.group())
    for m in re.finditer(r'^ *(?:pub(?:\(crate\))? )?fn (?:\w+_of|\w+_number|number|low\d+|swap\d|digit|digits|to_\w+)\(.*', text, re.M):
        found('4 conversions by hand', path, line_of(text, m.start()), m.group())
    for m in re.finditer(r'= \[0(?:u8|u64)?; \w+\]', text):
        found('6 fixed buffers', path, line_of(text, m.start()), m.group())
    for name, at, head, contract, body in functions(text):
        for m in re.finditer(r'(\w+): bool\b', head):
            found('7 flags that choose a step', path, line_of(text, at), name + ' ' + m.group())
        tokens = re.findall(r'\w+|[^\w\s]', body)
        if len(tokens) > 24:
            words = ('if', 'else', 'match', 'return', 'while', 'for', 'let', 'mut', 'as')
            shape = ' '.join(t if t in words or not re.match(r'\w', t) else 'x' for t in tokens)
            shapes[shape].append((path, line_of(text, at), name))
        for clause in re.findall(r'requires (?:\w+ )?\{(.*?)\}\s*(?=requires|ensures|$)', contract, re.S):
            for fact in clause.split(' × '):
                facts[(path.split('/')[1], re.sub(r'[()\s]', '', fact))].append((path, line_of(text, at), name))

for group in shapes.values():
    if len(group) > 1 and len({name for _, _, name in group}) > 1:
        for path, line, name in group:
            found('2 functions of one shape', path, line, name)
for (crate, fact), users in facts.items():
    if len({user for user in users}) > 2:
        for path, line, name in users:
            found('5 facts in three contracts or more', path, line, name + ': ' + fact)
for path in sorted(glob.glob('crates/*/proofs/**/Answers.antt', recursive=True)):
    text = open(path, encoding='utf-8').read()
    for m in re.finditer(r'^pub \S+ : goal\.', text, re.M):
        found('8 answers', path, line_of(text, m.start()), m.group())

for point in sorted(places):
    if point != '8 answers':
        for path, line, text in places[point]:
            print('%s: %s:%d: %s' % (point, path, line, text))
print()
for point in sorted(places):
    print('%5d  %s' % (len(places[point]), point))
