#!/usr/bin/env python3
"""Holds docs/TRACE.md to the documents and to the sources, from the repository's root:

    python3 docs/trace.py 01-scope.md 00-demands.md [02-change-requests.md]

Every quotation has to stand in its section of the document, in the document's order, and nothing of the document may be left over. Every name has
to exist, and every part of `where` has its word in `how`. A slip has landed if no row in its own section waits for it: then no other row waits for
it, and before that no row is replaced by it. Without the third document the sections on it are not looked at, and nothing is asked of slips. Prints
the rows and what is left of each section, and then what is wrong; the status is 0 if nothing is.
"""
import glob
import os
import re
import sys

SLIP = 'slip ([1-9]|1[0-4])'
SLIPS = f'(not yet|replaced): {SLIP}(, {SLIP})*'


def plain(text):
    return re.sub(r'\s+', ' ', text)


def sections_of(path, heading):
    """The sections of a document by their titles, which are the one group of `heading`."""
    parts = re.split(heading, open(path).read())[1:]
    assert len(set(parts[::2])) == len(parts[::2]), f'two sections of one title: {path}'
    return dict(zip(parts[::2], parts[1::2]))


def exists(name):
    """A file, a crate, crate/must-fail/edit, crate/Module, crate/Module.name or crate::name; a module in a folder is crate/Folder/Module."""
    if re.match(r'(docs|vectors)/', name):
        return os.path.exists(name)
    folder = 'crates/' + re.split('[/:]', name)[0]
    if not os.path.isdir(folder) or '/must-fail/' in name:
        return os.path.exists('crates/' + name)
    if '::' in name:
        code = ''.join(open(path).read() for path in glob.glob(folder + '/src/**/*.rt', recursive=True))
        return re.search(r'\b(fn|const|enum|struct) ' + name.split('::')[1] + r'\b', code)
    if '/' not in name:
        return True
    module, _, law = name.split('/', 1)[1].partition('.')
    paths = [path for path in (f'{folder}/{part}/{module}.antt' for part in ('specs', 'proofs')) if os.path.exists(path)]
    declared = r'(?m)^\s*(unfoldable |abbrev )*(pub )?(record )?' + re.escape(law) + r'( :|\s*\(|\s*$)'
    return any(not law or re.search(declared, open(path).read()) for path in paths)


def quoted_from(quoted, text, covered, start):
    """Where a quotation begins, at or behind `start`, and its pieces that aren't there; what it quotes is covered then."""
    at, first, missing = start, None, []
    for piece in filter(None, re.split(r' ?\.\. ?', quoted)):
        found = text.find(piece, at)
        if found < 0:
            missing.append(piece)
            continue
        first = found if first is None else first
        at = found + len(piece)
        covered.update(range(found, at))
    return start if first is None else first, missing


def complaints(where, words):
    if not re.fullmatch('–|`[^`]+`([,;] `[^`]+`)*', where):
        yield f'neither – nor names in backquotes: {where}'
    for name in re.findall('`([^`]+)`', where):
        if not exists(name):
            yield f'no such name: {name}'
    for word in words:
        if not re.fullmatch(r'defined|promised|proved|run|form|refused|–|' + SLIPS, word):
            yield f'not a word for how: {word}'
    parts = [] if where == '–' else where.split('; ')
    own = [word for word in words if not re.fullmatch(SLIPS, word)]
    if len(own) != len(parts) and not (where == '–' and words == ['–']):
        yield 'where and how have different lengths'


scope, demands, *requests = sys.argv[1:]
sections = sections_of(scope, r'(?m)^## (.*)$')
sections['The three demands'] = ' '.join(line[2:] for line in open(demands) if line.startswith('> '))
for path in requests:
    sections.update(sections_of(path, r'(?m)^(?:# |\*\*(?=Slip ))([^*\n]*)(?:\*\*)?'))
traced = sections_of('docs/TRACE.md', r'(?m)^## (.*)$')
wrong = [f'no such section: {title}' for title in traced if requests and title not in sections]
waiting, open_, replacing = set(), set(), set()
for title, text in sections.items():
    text, covered, start = plain(text), set(), 0
    rows = [line for line in traced.get(title, '').split('\n') if re.match(r'\| (?!0[012] \|)', line)]
    for row in rows:
        cells = row.strip('| ').split(' | ')
        if len(cells) != 3:
            wrong.append(f'not three cells: {row}')
            continue
        quoted, where, words = cells[0], cells[1], cells[2].split('; ')
        start, missing = quoted_from(quoted, text, covered, start)
        wrong += [f'not there, or not in order: {piece}' for piece in missing]
        wrong += [f'{complaint}, in the row of: {quoted}' for complaint in complaints(where, words)]
        for word in filter(re.compile(SLIPS).fullmatch, words):
            slips = set(re.findall(r'slip \d+', word))
            if word.startswith('replaced'):
                replacing |= slips
            else:
                waiting |= slips
                open_ |= {slip for slip in slips if title.startswith(slip.capitalize() + '.')}
    left = ''.join(' ' if i in covered else c for i, c in enumerate(text))
    left = plain(re.sub(r'(?<!\S)- ', ' ', left)).strip(' .')
    wrong += [f'left over: {left}'] * (left != '')
    print(f'{title}: {len(rows)} rows; left: {left!r}')
wrong += [f'replaces a sentence, and has not landed: {slip}' for slip in sorted(replacing & open_)]
wrong += [f'has landed, and a row waits for it: {slip}' for slip in sorted(waiting - open_) if requests]
print('\n'.join(wrong) or 'nothing is wrong')
sys.exit(wrong != [])
