"""Executions that crates/vectors_calls opens, and openings that it checks, for vectors/calls.py. The answers are the oracle's open_execution's and
check_opening's.

First come the three vectors: each opening is made, checked, and checked altered, and for one of them each two reasons to refuse it are put together.
Then two openings of the greatest and the least numbers; then the calls that open nothing, for one reason and for two.
"""
import hashlib
import json
import os
import sys

import oracle
import tamper
from lines import WORK, WORK_ROOM, call, told

OPENING = oracle.BASE.opening_len
# the most of the output that is lent
OUTPUT = 2600


class Lent:
    """What is lent until it is changed. Each input has a byte more than the calls want."""

    def keys(self, key, public_key):
        self.key, self.public_key = key + b'\x55', public_key + b'\0'

    def seeds(self, salt, root, first):
        self.salt, self.root, self.first = salt + b'\x66', root + b'\x77', first + b'\x88'

    def open(self, e, second, hidden, k=16, p=32, s=32, r=16, f=40, output=OPENING, work=WORK):
        key, public_key, salt, root, first = self.key[:k], self.public_key[:p], self.salt[:s], self.root[:r], self.first[:f]
        answer = oracle.open_execution(key, public_key, salt, root, e, first, second, hidden, output, work)
        if told(answer) == (0, 0):
            self.opening = answer[1]
        return call('o', answer, output, work, e, hidden, second, key=key, public_key=public_key, salt=salt, seeds=root, message=first)

    def verify(self, changes=(), p=32, work=WORK):
        public_key, altered = self.public_key[:p], tamper.apply(self.opening, changes)
        return call('c', oracle.check_opening(public_key, altered, work), work=work, public_key=public_key, file=altered)


lent = Lent()


# ---- the vectors

def draws(item):
    return [bytes.fromhex(item[field]) for field in ('salt', 'root_seed', 'first_draws')]


def expected(item):
    return item['expected'].get('number', 0), item['expected'].get('place', 0)


def changes_of(item):
    return [tuple(bytes.fromhex(change[field]) if field == 'hex' else change[field] for field in ('op', 'at', 'length', 'hex') if field in change)
            for change in item['changes']]


def check_altered_keys(key, items):
    public_key = lent.public_key[:32]
    for item in sorted(items, key=lambda item: len(item['public_key']) == 64):
        other = bytes.fromhex(item['public_key'])
        if len(other) == 32:
            lent.keys(key, other)
        assert lent.public_key[:len(other)] == other
        assert lent.verify(p=len(other)) == expected(item)
    if items:
        lent.keys(key, public_key)


def check_two_reasons():
    """The first of each two is told."""
    at, parts, shown = tamper.opening_layout(oracle.BASE), oracle.read_opening(oracle.BASE, lent.opening), 7

    def flip(name, offset):
        return [tamper.flip(lent.opening, at[name] + offset)]

    assert parts.hidden != shown
    reasons = [
        ((2, 0), [], {'p': 31}), ((6, 0), [('truncate', OPENING - 1)], {}), ((7, 0), [], {'work': WORK - 1}),
        ((8, 0), [('set', at['e'], b'\x29')], {}), ((9, 0), [('set', at['hidden'], b'\x10')], {}),
        ((10, 0), [('set', at['R'], b'\x13\0\0\0')], {}), ((13, shown), flip('commitments', 32 * shown), {}),
        ((14, shown), flip('outputs', 16 * shown), {}), ((14, 16), flip('outputs', 16 * parts.hidden), {}),
        ((15, parts.e), flip('c', 4 * parts.hidden), {})]
    for i, (verdict, changes, lengths) in enumerate(reasons):
        assert lent.verify(changes, **lengths) == verdict
        for _, others, more in reasons[i + 1:]:
            assert lent.verify(others + changes, **lengths, **more) == verdict
    assert lent.verify(p=0) == (2, 0) and lent.verify([('truncate', 0)]) == (6, 0) and lent.verify(work=0) == (7, 0)
    assert lent.verify(p=33, work=0) == (2, 0) and lent.verify([('append', b'\0')], work=0) == (6, 0)


vectors = []
for name in ('vector_000.json', 'vector_001.json', 'vector_002.json'):
    with open(os.path.join(sys.argv[1], 'vectors', name)) as file:
        vectors.append(json.load(file))
KEY, PUBLIC_KEY = (bytes.fromhex(vectors[0][field]) for field in ('key', 'public_key'))
FIRST = vectors[0]['openings'][0]

# lengths of output and work
ROOMS = (OPENING, WORK), (OUTPUT, WORK_ROOM), (OPENING + 1, WORK), (OPENING, WORK + 1)
for v in vectors:
    key = bytes.fromhex(v['key'])
    lent.keys(key, bytes.fromhex(v['public_key']))
    for i, item in enumerate(v['openings']):
        output, work = ROOMS[i % 4]
        lent.seeds(*draws(item))
        assert lent.open(item['e'], item['R'], item['hidden'], output=output, work=work) == (0, 0)
        assert lent.opening == bytes.fromhex(item['opening'])
        assert lent.verify(work=work) == (0, 0)
        for altered in item['tampered']:
            assert lent.verify(changes_of(altered)) == expected(altered)
        check_altered_keys(key, item['tampered_public_key'])
        if item is FIRST:
            check_two_reasons()

# ---- the greatest and the least numbers

lent.keys(KEY, PUBLIC_KEY)
for byte, e, second, hidden in (0xff, 40, 2 ** 32 - 1, 0), (0, 0, 20, 15):
    lent.seeds(bytes([byte] * 32), bytes([byte] * 16), bytes([byte] * 40))
    assert lent.open(e, second, hidden) == (0, 0)
    assert lent.verify() == (0, 0)

# ---- nothing is opened

GOOD = {'e': FIRST['e'], 'second': FIRST['R'], 'hidden': FIRST['hidden'], 'output': OUTPUT, 'work': WORK_ROOM}
# two reasons are put together by their first values
REASONS = [
    (1, 'k', (15, 17, 0)), (2, 'p', (31, 33, 0)), (4, 's', (31, 33, 0)), (4, 'f', (39, 41, 0)), (5, 'r', (15, 17, 0)),
    (6, 'output', (OPENING - 1, 0)), (7, 'work', (WORK - 1, 0)), (8, 'e', (41, 255, 256, 1000)), (9, 'hidden', (16, 255, 256, 1000)),
    (10, 'second', (19, 0))]
lent.seeds(*draws(FIRST))
for i, (number, name, values) in enumerate(REASONS):
    for value in values:
        assert lent.open(**{**GOOD, name: value}) == (number, 0)
    for _, other, more in REASONS[i + 1:]:
        assert lent.open(**{**GOOD, name: values[0], other: more[0]}) == (number, 0)
assert lent.open(**{**GOOD, **{name: values[0] for _, name, values in REASONS}}) == (1, 0)


def refuse_key(key, public_key, verdict):
    lent.keys(key, public_key)
    assert lent.open(**GOOD) == verdict


def refuse_key_last():
    for number, name, values in REASONS:
        assert lent.open(**{**GOOD, name: values[0]}) == (number, 0)


def meets_zero(key, plaintext, place):
    """With the right ciphertext."""
    refuse_key(key, plaintext + oracle.aes_encrypt(key, plaintext), (11, place))


def drawn_to_meet_zero(place):
    for n in range(10000):
        drawn = hashlib.shake_128(b'zero inputs %d' % n).digest(32)
        if told(oracle.make_public_key(drawn[:16], drawn[16:])) == (11, place):
            return drawn[:16], drawn[16:]


EXAMPLE = bytes(range(16)), bytes(range(0, 256, 17))
meets_zero(*EXAMPLE, 40)
for i, place in (12, 3), (13, 0), (14, 1), (15, 2):
    meets_zero(KEY[:i] + b'\0' + KEY[i + 1:], PUBLIC_KEY[:16], place)
for place in 4, 39, 41, 199:
    meets_zero(*drawn_to_meet_zero(place), place)
for item in [item for v in vectors for item in v['refused_keys']]:
    meets_zero(bytes.fromhex(item['key']), bytes.fromhex(item['plaintext']), expected(item)[1])
# 11 before 12
refuse_key(EXAMPLE[0], EXAMPLE[1] + bytes(16), (11, 40))
refuse_key_last()
for at in 0, 16, 31:
    refuse_key(KEY, tamper.apply(PUBLIC_KEY, [tamper.flip(PUBLIC_KEY, at)]), (12, 0))
refuse_key(bytes.fromhex(vectors[1]['key']), PUBLIC_KEY, (12, 0))
refuse_key_last()
