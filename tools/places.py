#!/usr/bin/env python3
"""Lists and counts, for docs/DESIGN-PASS.md, the places of the older forms in crates/*/src: python3 tools/places.py [-v] [REPOSITORY]

What it finds goes by text, and the page says of each place what was done with it. With -v each place is listed.
"""
import collections, glob, os, re, sys

verbose = '-v' in sys.argv
args = [a for a in sys.argv[1:] if a != '-v']
root = args[0] if args else os.path.join(os.path.dirname(os.path.abspath(__file__)), '..')

class Function:
    pass

def functions(path):
    """The functions of a file: crate, name, parameters, clauses, body and the comment before it."""
    text = open(path).read()
    crate = path.split('/crates/')[1].split('/')[0]
    out = []
    for m in re.finditer(r'(?m)^( *)((?:pub )?(?:extern "C" )?fn (\w+)(<[^>]*>)?\()', text):
        f = Function()
        f.crate, f.name, f.public = crate, m.group(3), 'pub ' in m.group(2)
        i, depth = m.end(), 1
        while depth:
            depth += {'(': 1, ')': -1}.get(text[i], 0)
            i += 1
        params = text[m.end():i - 1]
        f.params = [re.sub(r'\s+', ' ', p).strip() for p in re.split(r',(?![^\[<(]*[\]>)])', params) if p.strip()]
        end = text.find('\n' + m.group(1) + '{\n', i)
        one = text.find(' {\n', i)
        if end < 0 or (0 <= one < end and '\n' not in text[i:one]):
            end = one
        stop = text.find('\n' + m.group(1) + '}\n', end)
        f.clauses, f.body = text[i:end], text[end:stop]
        before = text[:m.start()].rstrip('\n').split('\n')
        notes = []
        while before and before[-1].strip().startswith(('//', '#[')):
            notes.insert(0, before.pop().strip())
        f.note = ' '.join(notes)
        f.line = text[:m.start()].count('\n') + 1
        out.append(f)
    return out

files = sorted(glob.glob(os.path.join(root, 'crates/*/src/*.rt')))
files = [os.path.abspath(f) for f in files]
texts = {f: open(f).read() for f in files}
every = [f for p in files for f in functions(p)]
where = lambda p: p.split('/crates/')[1].replace('/src/lib.rt', '').replace('/src/main.rt', '').replace('/src', '')

def lines(pattern):
    return [f'{where(p)}:{n}: {l.strip()}' for p in files for n, l in enumerate(texts[p].split('\n'), 1) if re.search(pattern, l)]

def say(point, what, places):
    print(f'{point}  {len(places):4}  {what}')
    if verbose:
        for p in places:
            print(f'          {p}')

# ---- 1
say(1, 'enums of this repository', lines(r'^(pub )?enum '))
say(1, 'tests of an answer by hand: a variant that goes on, and the rest returned', lines(r'Answer::Accepted => \{\}'))
say(1, 'structs with a flag', lines(r'^    (pub )?\w+: bool,'))
say(1, 'functions whose number stands for "none"', [f'{f.crate}::{f.name}' for f in every if re.search(
    r'-> (usize|u8|u32)', f.clauses) and (re.search(r', or (n|the (count|length))\b|or the length where|else where the text ends|where there is no|or the count|for none', f.note))])
say(1, 'numbers compared as kinds of refusals', lines(r'\.number (==|!=)'))

# ---- 2: bodies that are equal but for numbers and constants
shapes = collections.defaultdict(list)
for f in every:
    body = re.sub(r'\b(0x[0-9a-f_]+|\d[\d_]*)(u8|u32|u64|usize)?\b', '#', f.body)
    body = re.sub(r'\b[A-Z][A-Z0-9_]+\b', 'CONSTANT', body)
    body = re.sub(r'\b(\w+?)\d+(_\d+)?\b', r'\1', body)
    body = re.sub(r'\s+', ' ', body).strip()
    if len(body) > 12:
        shapes[body].append(f'{f.crate}::{f.name}')
twins = [', '.join(v) for v in shapes.values() if len(v) > 1]
say(2, 'groups of functions whose bodies are equal but for numbers and constants', twins)
say(2, 'switches on the width of the wide field', lines(r'wide == '))

# ---- 3
say(3, 'loops that count by hand (while, loop)', lines(r'^\s*(\'\w+: )?(while|loop)\b'))
elementwise = []
for p in files:
    ls = texts[p].split('\n')
    for n, l in enumerate(ls):
        m = re.match(r'(\s*)(?:\'\w+: )?for (\w+) in (.*) \{$', l)
        if not m or '..' not in m.group(3) or m.group(2) == '_':
            continue
        body = []
        for k in ls[n + 1:]:
            if k == m.group(1) + '}':
                break
            body.append(k)
        v = m.group(2)
        body = '\n'.join(body)
        rest = re.sub(r'\[%s\]' % v, '', body)
        if not re.search(r'\b%s\b' % v, rest) and body != rest:
            elementwise.append(f'{where(p)}:{n + 1}: {l.strip()}')
say(3, 'for over a range whose number only indexes, as s[i]', elementwise)
say(3, 'for over the indices of a slice', lines(r'for \w+ in (0|from)\.\.\w+(\.\w+)*\.len\(\) \{'))
say(3, 'for over another range of numbers', [l for l in lines(r'for \w+ in .*\.\..* \{$') if not re.search(r'\.len\(\) \{', l)])

# ---- 4
say(4, 'functions that compare, copy or fill slices', [f'{f.crate}::{f.name}' for f in every if f.name in ('equal', 'copy', 'zero', 'copy_at', 'first_difference', 'has_size')])
say(4, 'functions that convert between bytes, numbers and answers', [f'{f.crate}::{f.name}' for f in every if re.search(r'^(load\d*|store|join\d*|verdict|code|at|symbol|value|digit_of|half_of|outcome_of)$', f.name)])
say(4, 'functions that write numbers or text', [f'{f.crate}::{f.name}' for f in every if re.search(r'^(decimal|print_\w+|encode\w*|write_number)$', f.name)])

# ---- 5
facts = collections.defaultdict(set)
for f in every:
    for c in re.findall(r'requires(?: \w+)? \{(.*?)\}\n', f.clauses + '\n', re.S):
        c = re.sub(r'\s+', ' ', c).strip()
        parts, depth, word = [], 0, ''
        for ch in c:
            depth += {'(': 1, ')': -1}.get(ch, 0)
            if ch == '×' and depth == 0:
                parts.append(word); word = ''
            else:
                word += ch
        parts.append(word)
        for x in parts:
            x = x.strip()
            if x.startswith('(') and x.endswith(')'):
                x = x[1:-1]
            x = re.sub(r'\.(old|now)\b', '', x)
            if x:
                facts[x].add(f'{f.crate}::{f.name}')
repeated = {k: v for k, v in facts.items() if len(v) >= 3}
say(5, 'facts asked by three functions or more', [f'{len(v):3} {k}' for k, v in sorted(repeated.items(), key=lambda kv: -len(kv[1]))])
say(5, 'clauses of these functions in all', [x for v in repeated.values() for x in sorted(v)] if not verbose else [f'{sum(len(v) for v in repeated.values())} in all'] * 1)
groups = collections.Counter()
for f in every:
    names = sorted(set(p for p in f.params if ':' in p))
    for i in range(len(names)):
        for j in range(i):
            groups[(names[j], names[i])] += 1
single = collections.Counter(p for f in every for p in set(f.params))
say(5, 'pairs of parameters that are together in five functions or more and seldom apart', [f'{n:3} {a}; {b}' for (a, b), n in groups.most_common() if n >= 5 and n * 4 >= 3 * min(single[a], single[b])])
say(5, 'functions with eight parameters or more', [f'{f.crate}::{f.name} ({len(f.params)})' for f in every if len(f.params) >= 8])

# ---- 6
say(6, 'rooms of the largest size, of which a part is used', lines(r'let mut \w+ = \[0u(8|64); ([a-z_]+::)?[A-Z0-9]\w*\];'))
say(6, 'structs with bytes and their length', lines(r'^    (pub )?length: usize,'))
say(6, 'functions that write to the front of a slice and return how much', [f'{f.crate}::{f.name}' for f in every if '-> usize' in f.clauses and any('&mut [u8]' in p for p in f.params)])

# ---- 7
say(7, 'switches on a kind', lines(r'\b(match kind|if kind ==|kind == b)'))
say(7, 'boxed closures, dyn, function pointers', lines(r'\bdyn\b|Box<|: fn\('))

# ---- 8
for name in ('Proof', 'Answers', 'Invariants'):
    found = glob.glob(os.path.join(root, f'crates/*/proofs/**/{name}.antt'), recursive=True)
    print(f'8  {len(found):4}  {name}.antt, {sum(open(x).read().count(chr(10)) for x in found)} lines')
