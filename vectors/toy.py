#!/usr/bin/env python3
"""Writes crates/toy/specs/Rows.antt: python3 vectors/toy.py

The toys of crates/toy/specs/Toy.antt, and the rows: what the definitions are asked for, and what vectors/banquet.py gives.
"""
import os
import sys

sys.dont_write_bytecode = True
from banquet import (
    Scheme, WORK, add, call, card, check_opening, check_seal, frame_of, make_public_key, open_execution, printed, refuse, seal)
from field import byte


# ---- the toys

def toy_hash(text, n):
    state, out = 7, []
    for b in text:
        state = (state * 31 + b + 1) % 65521
    for _ in range(n):
        out.append(state * state // 256 % 256)
        state = (state * 33 + 1) % 65521
    return bytes(out)


def toy_circuit(n):
    """n S-boxes: each is given a byte of the key, one of the front, and the inverse of the one before."""
    def walk(front, key, invert, constants):
        inputs, inverses = [], []
        for l in range(n):
            inputs.append(key[l] ^ (front[l] if constants else 0) ^ (inverses[-1] if inverses else 0))
            inverses.append(invert(l, inputs[l]))
        return inputs, add(key, bytes(inverses + [0x63 if constants else 0]).ljust(16, b'\0'))
    return walk


TOY = Scheme(parties=3, executions=2, wide=1, low=0x1d, m1=1, m2=1, front=5, hash=toy_hash, walk=toy_circuit(1))
ROWS = Scheme(parties=2, executions=1, wide=1, low=0x1d, m1=2, m2=2, front=5, hash=toy_hash, walk=toy_circuit(4))
WIDE = Scheme(parties=2, executions=1, wide=2, low=0x2b, m1=2, m2=1, front=5, hash=toy_hash, walk=toy_circuit(2))
SEAL, OPENING = sum(TOY.seal_sizes), sum(TOY.opening_sizes)
NAMES = {TOY: 'toy', ROWS: 'rows_toy', WIDE: 'wide_toy'}


# ---- lists as the rows write them, with their bytes

class Term:
    def __init__(self, text, value):
        self.text, self.value = text, bytes(value)

    def __add__(self, other):
        return Term('(%s ++ %s)' % (self.text, other.text), self.value + other.value)


def listed(numbers):
    return ''.join('%d ∷ ' % n for n in numbers) + '[]'


def literal(value):
    return Term('(%s)' % listed(value) if value else '[]', value)


def fill(n, v):
    return Term('(replicate %d %d)' % (n, v), bytes([v]) * n)


def take(n, t):
    return Term('(take %d %s)' % (n, t.text), t.value[:n])


def drop(n, t):
    return Term('(drop %d %s)' % (n, t.text), t.value[n:])


def put(t, at, value):
    value = literal(value)
    return Term('(put %s %d %s)' % (t.text, at, value.text), t.value[:at] + value.value + t.value[at + len(value.value):])


def flip(t, *places):
    """One bit changed at each place."""
    for at in places:
        t = put(t, at, [t.value[at] ^ 1])
    return t


def insert(at, value, t):
    value = literal(value)
    return Term('(insert %d %s %s)' % (at, value.text, t.text), t.value[:at] + value.value + t.value[at:])


def remove(at, n, t):
    return Term('(remove %d %d %s)' % (at, n, t.text), t.value[:at] + t.value[at + n:])


def told(text, answer):
    return 'verdict_of (%s)' % text, answer


# ---- calls as the rows write them

class Call:
    """`record` and `answer` name the definitions; `good` has the arguments in order, by name, that are accepted."""

    def __init__(self, scheme, record, answer, run, **good):
        self.scheme, self.record, self.answer, self.run, self.good = scheme, record, answer, run, good

    def apply(self, changes):
        """The arguments' text; number and place; the arguments afterwards."""
        arguments = {**self.good, **changes}
        values = {name: getattr(t, 'value', t) for name, t in arguments.items()}
        for name in {'output', 'work'} & set(values):
            values[name] = bytearray(values[name])
        answer = self.run(self.scheme, *values.values())
        return ' '.join([NAMES[self.scheme]] + [getattr(t, 'text', str(t)) for t in arguments.values()]), answer, values

    def told(self, **changes):
        text, answer, _ = self.apply(changes)
        return told('%s %s' % (self.answer, text), answer)

    def output(self, n=None, **changes):
        """What the output holds, or its first n bytes."""
        text, _, after = self.apply(changes)
        text = '(%s %s).output' % (self.record, text)
        return 'take %d %s' % (n, text) if n else text, after['output'][:n]

    def work(self, **changes):
        """The first three bytes of the work slice."""
        text, _, after = self.apply(changes)
        return 'take 3 (%s %s).work' % (self.record, text), after['work'][:3]

    def refusals(self, *faults):
        """Each fault, given by its number and how the arguments change, along with all that come after it: the first is what is told."""
        for n, (number, _) in enumerate(faults):
            changes = {}
            for _, change in reversed(faults[n:]):
                changes.update(change)
            row = self.told(**changes)
            assert row[1][0] == number
            yield row


def zeroed(scheme, key, front, l):
    """The key with another byte l, so that S-box l is given zero."""
    inputs, _ = scheme.walk(front.value, key.value, lambda l, x: byte.inverse(x), True)
    return put(key, l, [key.value[l] ^ inputs[l]])


def starts(sizes):
    return [sum(sizes[:n]) for n in range(len(sizes))]


def frame(e):
    """Where the fields of the toy's frame e start."""
    return [96 + sum(TOY.frame_sizes) * e + n for n in starts(TOY.frame_sizes)]


# ---- what the toys are given

files = []


def name(text, value):
    files.append(Term(text, value))
    return files[-1]


key = name('key', range(50, 66))
front = name('plaintext', range(100, 105))
salt = name('salt', range(200, 232))
seeds = name('seeds', range(32))
message = name('message', b'abc')
work = Term('work', bytes([7]) * WORK)


def made(text, size, run, scheme, *arguments):
    """The file that a call makes, under a name."""
    output = bytearray(size)
    assert run(scheme, *arguments, output, *([] if run is make_public_key else [bytearray(WORK)])) == (0, 0)
    return name(text, output)


def public_key_of(text, scheme):
    return made(text, scheme.front + 16, make_public_key, scheme, key.value, front.value)


def signature_of(text, scheme, public_key):
    roots = seeds.value[:16 * scheme.executions]
    return made(text, sum(scheme.seal_sizes), seal, scheme, key.value, public_key.value, message.value, salt.value, roots)


def opening_of(text, scheme, public_key, r, e, R, hidden):
    root = seeds.value[:16]
    return made(text, sum(scheme.opening_sizes), open_execution, scheme, key.value, public_key.value, salt.value, root, bytes(r), e, R, hidden)


public_key = public_key_of('public_key', TOY)
signature = signature_of('signature_file', TOY, public_key)
opening = opening_of('opening_file', TOY, public_key, [250], 1, 9, 1)
first_hidden = opening_of('first_hidden', TOY, public_key, [250], 0, 1, 0)
rows_key = public_key_of('rows_key', ROWS)
rows_signature = signature_of('rows_signature', ROWS, rows_key)
rows_opening = opening_of('rows_opening', ROWS, rows_key, [5, 250], 0, 77, 1)
wide_key = public_key_of('wide_key', WIDE)
wide_opening = opening_of('wide_opening', WIDE, wide_key, [5, 250, 7, 131], 0, 0x1234, 0)


def hexadecimal(s):
    return s.hex().encode() + b'\n'


frames = [frame_of(TOY, signature.value, e) for e in range(TOY.executions)]
lines = [hexadecimal(s) for s in (public_key.value, message.value, signature.value[:96], *frames)]
card_text = name('card', b''.join(lines))

make_call = Call(TOY, 'make_public_key', 'public_key_answer', make_public_key, key=key, plaintext=front, output=fill(24, 7))
rows_call = Call(ROWS, 'make_public_key', 'public_key_answer', make_public_key, key=key, plaintext=front, output=fill(21, 7))
sign_call = Call(
    TOY, 'sign', 'sign_answer', seal, key=key, public_key=public_key, message=message, salt=salt, seeds=seeds, output=fill(SEAL + 3, 7), work=work)
verify_call = Call(TOY, 'verify', 'verify_answer', check_seal, public_key=public_key, message=message, file=signature, work=work)
open_call = Call(
    TOY, 'open_execution', 'open_answer', open_execution, key=key, public_key=public_key, salt=salt, root=take(16, seeds), r=literal([250]), e=1,
    R=9, hidden=1, output=fill(OPENING + 3, 7), work=work)
check_call = Call(TOY, 'verify_opening', 'verify_opening_answer', check_opening, public_key=public_key, file=opening, work=work)


# ---- the rows, by kind: a comment, or what the definitions are asked for and what is expected

def call_rows():
    short = dict(work=drop(1, work))
    no_key, no_public_key = dict(key=take(15, key)), dict(public_key=take(20, public_key))
    zero, wrong = dict(key=zeroed(TOY, key, front, 0)), dict(key=flip(key, 9))
    yield 'each refusal along with all later ones, and then none: make a public key'
    yield from make_call.refusals((1, no_key), (2, dict(plaintext=take(4, front))), (6, dict(output=fill(20, 7))), (11, zero))
    yield make_call.told()
    yield 'sign'
    long = dict(message=fill(32769, 0))
    yield from sign_call.refusals(
        (1, no_key), (2, no_public_key), (3, long), (4, dict(salt=take(31, salt))), (5, dict(seeds=take(31, seeds))),
        (6, dict(output=fill(SEAL - 1, 7))), (7, short), (11, zero), (12, wrong))
    yield sign_call.told()
    yield 'check a signature, of which the rest is below'
    yield from verify_call.refusals(
        (2, no_public_key), (3, long), (6, dict(file=take(SEAL - 1, signature))), (7, short), (15, dict(file=flip(signature, frame(1)[5]))))
    yield verify_call.told(file=signature + literal([0]))
    yield 'a message as long as may be'
    yield verify_call.told(message=fill(32768, 0), file=take(SEAL - 1, signature))
    yield 'open an execution'
    yield from open_call.refusals(
        (1, no_key), (2, no_public_key), (4, dict(salt=take(31, salt))), (4, dict(r=literal([250, 0]))), (5, dict(root=take(15, seeds))),
        (6, dict(output=fill(OPENING - 1, 7))), (7, short), (8, dict(e=2)), (9, dict(hidden=3)), (10, dict(R=0)), (11, zero), (12, wrong))
    yield open_call.told()
    yield 'numbers that no byte holds'
    yield open_call.told(e=256)
    yield open_call.told(hidden=257)
    yield 'check an opening, of which the rest is below'
    at = starts(TOY.opening_sizes)
    low = put(opening, at[8], [0])
    over = put(low, at[12], [3])
    yield from check_call.refusals(
        (2, no_public_key), (6, dict(file=take(OPENING - 1, opening))), (7, short), (8, dict(file=put(over, at[1], [2]))), (9, dict(file=over)),
        (10, dict(file=low)))
    yield check_call.told(file=opening + literal([0]))


def slice_rows():
    zero, wrong = dict(key=zeroed(TOY, key, front, 0)), dict(key=flip(key, 9))
    at = starts(TOY.opening_sizes)
    yield 'outputs, to which three bytes more are lent than are written'
    yield make_call.output()
    yield open_call.output()
    yield 'where a call is refused'
    yield make_call.output(**zero)
    yield sign_call.output(3, **wrong)
    yield open_call.output(3, e=2)
    yield 'the work slice after signing, and after an opening\'s check (13 and 9)'
    yield sign_call.work()
    yield check_call.work(file=flip(opening, at[2]))
    yield check_call.work(file=put(opening, at[12], [3]))
    yield 'all answers in turn: what 7 in a work slice becomes, and in an output on which 5 is written'
    outputs, works = [], []
    for n in range(19):
        def answer():
            refuse(n, n)
            return bytes([5])
        one, other = bytearray([7]), bytearray([7])
        call(answer, one, other)
        outputs += one
        works += other
    yield 'map (λ (x : Answer). choose (clears (verdict_of x)) 0 7) answers', works
    yield 'map (λ (x : Answer). get_or (output_after x (5 ∷ []) (7 ∷ [])) 0 1) answers', outputs
    yield 'two bytes beyond 65,536'
    longer = bytearray(work.value + bytes([8, 9]))
    call(bytes, work=longer)
    yield 'drop 65534 (work_after accepted (work ++ (8 ∷ 9 ∷ [])))', longer[65534:]


def opening_told(file, key=public_key, scheme=TOY):
    answer = check_opening(scheme, key.value, file.value, bytearray(WORK))
    return told('opening_checked %s %s %s' % (NAMES[scheme], key.text, file.text), answer)


def signature_told(file, key=public_key, text=message, scheme=TOY):
    answer = check_seal(scheme, key.value, text.value, file.value, bytearray(WORK))
    return told('signature_checked %s %s %s %s' % (NAMES[scheme], key.text, text.text, file.text), answer)


def opening_rows():
    at = starts(TOY.opening_sizes)
    yield 'hiding party 1: salt, execution'
    yield opening_told(flip(opening, at[0] + 31))
    yield opening_told(flip(opening, at[1]))
    yield 'commitments: the hidden one isn\'t looked at'
    for i in range(3):
        yield opening_told(flip(opening, at[2] + 32 * i + 31))
    yield 'output shares'
    for i in range(3):
        yield opening_told(flip(opening, at[3] + 16 * i + 15))
    yield 'key offset, inverse offsets, first draws, product offsets, R'
    yield opening_told(flip(opening, at[4] + 15))
    for n in (5, 6, 7):
        yield opening_told(flip(opening, at[n]))
    yield opening_told(flip(opening, at[7] + 1))
    yield opening_told(flip(opening, at[8]))
    yield 'shares of c, of a and of b'
    for i in (0, 1):
        yield opening_told(flip(opening, at[9] + i))
    for i in (0, 2):
        yield opening_told(flip(opening, at[10] + i))
    for i in (0, 1, 2):
        yield opening_told(flip(opening, at[11] + i))
    yield 'hidden party, sibling seeds'
    yield opening_told(put(opening, at[12], [0]))
    yield opening_told(put(opening, at[12], [2]))
    yield opening_told(flip(opening, at[13]))
    yield opening_told(flip(opening, at[13] + 16))
    yield 'two of them: a commitment before a share, a share of a lower party before one of a higher, shares before the ciphertext, this before c'
    yield opening_told(flip(opening, at[2] + 64, at[3]))
    yield opening_told(flip(opening, at[3] + 32, at[9]))
    yield opening_told(flip(opening, at[3] + 16, at[9] + 2))
    yield opening_told(flip(opening, at[3] + 16, at[9] + 1))
    yield 'another plaintext'
    yield opening_told(opening, flip(public_key, 0))
    yield 'an opening of execution 0 that hides party 0, where R is 1: nobody reads the offsets'
    yield opening_told(flip(first_hidden, at[4], at[5], at[7]))
    yield opening_told(flip(first_hidden, at[0]))


def signature_rows():
    yield 'another message, another public key'
    yield signature_told(signature, text=literal(b'abd'))
    yield signature_told(signature, flip(public_key, 4))
    yield signature_told(signature, flip(public_key, 20))
    yield 'salt, h1, h3'
    for at in (0, 32, 64):
        yield signature_told(flip(signature, at + 31))
    yield 'another h3 that hides the same parties'
    hidden = TOY.hidden_parties(signature.value[64:96])
    others = (flip(signature, at) for at in range(64, 96))
    yield signature_told(next(t for t in others if TOY.hidden_parties(t.value[64:96]) == hidden))
    yield 'frame 0: sibling seeds, hidden commitment, key offset, inverse offsets, product offsets, c, a, b'
    for n in range(8):
        yield signature_told(flip(signature, frame(0)[n]))
    yield 'frame 1: sibling seeds, hidden commitment, key offset, inverse offsets, c, a, b; the last three zero'
    for n in (0, 1, 2, 3, 5, 6, 7):
        yield signature_told(flip(signature, frame(1)[n]))
    yield signature_told(put(signature, frame(1)[5], bytes(3)))
    yield 'two of them: c of both frames; c and h1; product offsets and h1'
    yield signature_told(flip(signature, frame(0)[5], frame(1)[5]))
    yield signature_told(flip(signature, frame(1)[5], 32))
    yield signature_told(flip(signature, frame(0)[4], 32))


def card_rows():
    def card_told(t):
        return told('card_checked toy ' + t.text, card(TOY, t.value))

    ends = [sum(map(len, lines[:n + 1])) for n in range(5)]  # behind each line's end
    yield 'as it should be; nothing; no message; another c in the last frame'
    yield card_told(card_text)
    yield card_told(literal(b''))
    yield card_told(remove(ends[0], 6, card_text))
    c = ends[3] + 2 * starts(TOY.frame_sizes)[5]
    yield card_told(put(card_text, c, b'1' if lines[4][c - ends[3]] == ord('0') else b'0'))
    yield 'ends behind a line'
    for n in range(4):
        yield card_told(take(ends[n], card_text))
    yield 'ends before a line\'s end'
    for n in range(5):
        yield card_told(take(ends[n] - 1, card_text))
    yield 'a line with two digits less, with two more'
    for n in (0, 2, 3, 4):
        yield card_told(remove(ends[n] - 3, 2, card_text))
    for n in (0, 2, 3, 4):
        yield card_told(insert(ends[n] - 1, b'00', card_text))
    yield 'a digit less in the message; a capital digit in each line; the end of a line doubled'
    yield card_told(remove(ends[1] - 2, 1, card_text))
    for n in range(5):
        yield card_told(put(card_text, ends[n] - 2, b'A'))
    yield card_told(insert(ends[0], b'\n', card_text))
    yield card_told(insert(ends[2], b'\n', card_text))
    yield 'the bytes beside the digits: / : ` g; a blank; 0x0D before 0x0A'
    for b in b'/:`g ':
        yield card_told(put(card_text, 0, [b]))
    yield card_told(insert(ends[2] - 1, b'\r', card_text))
    yield 'bytes behind the last line: a line end, a blank, a frame; behind a forged card'
    yield card_told(card_text + literal(b'\n'))
    yield card_told(card_text + literal(b' '))
    yield card_told(card_text + drop(ends[3], card_text))
    yield card_told(put(card_text, 0, b'0') + literal(b'\n'))
    yield 'two bad lines'
    yield card_told(put(put(card_text, ends[3], b'x'), ends[1], b'x'))


def text_rows():
    yield 'how many digits a message may have'
    for n in (0, 1, 65536, 65537, 65538):
        text = hexadecimal(public_key.value) + b'0' * n + b'\n'
        yield 'choose (has_size true 32768 %d) (1 ∷ []) (0 ∷ [])' % n, [int(card(TOY, text) == (18, 3))]
    yield 'what is printed'
    for verdict in ((0, 0), (18, 1), (1, 0), (9, 0), (11, 199), (14, 16), (15, 40), (18, 45), (10, 100)):
        yield 'printed (verdict %d %d)' % verdict, printed(*verdict)
    yield 'for no text'
    yield 'printed (verdict_of (card_checked toy []))', printed(*card(TOY, b''))
    yield 'a card\'s text'
    yield 'card_text toy public_key message signature_file', card_text.value
    yield 'frames of a signature: both, the next, one of a file that is too short'
    for e, file in ((0, signature), (1, signature), (2, signature), (0, take(SEAL - 1, signature))):
        yield 'frame_of toy %s %d' % (file.text, e), frame_of(TOY, file.value, e)
    yield 'two rows of S-boxes: a public key, the product offset at 3, the second party\'s shares of a in an opening'
    yield rows_call.output()
    at = starts(ROWS.opening_sizes)
    offset, a = at[7] + 1, at[10] + 2
    asked = 'product_offset_at rows_toy (tape_of rows_toy salt (take 16 seeds) 0) plaintext key (5 ∷ 250 ∷ []) 3 ∷ []'
    yield asked, rows_opening.value[offset:offset + 1]
    yield 'part %d 2 (opening rows_toy key rows_key salt (take 16 seeds) (5 ∷ 250 ∷ []) 0 77 1)' % a, rows_opening.value[a:a + 2]


def other_rows():
    yield 'two rows of S-boxes: a zero input at 3; at 1 and 3; at 0; none'
    for changed in (zeroed(ROWS, key, front, 3), zeroed(ROWS, zeroed(ROWS, key, front, 1), front, 3), zeroed(ROWS, key, front, 0), key):
        yield rows_call.told(key=changed)
    yield 'a signature'
    yield signature_told(rows_signature, rows_key, message, ROWS)
    yield 'wide elements of two bytes: an opening'
    yield opening_told(wide_opening, wide_key, WIDE)


# ---- the file

HEADER = """-- Written by vectors/toy.py: what the definitions are asked for, and what they ought to give.
use Rattle.std.specs.Prelude.{true, List, [], ◌∷◌, ◌++◌, map, ℕ, get_or, take, drop, replicate}
use Rattle.slices.specs.Lists.{choose, part, put}
use Rattle.banquet.specs.declared.Verdict.{Verdict}
use Rattle.banquet.specs.Answer.{Answer, accepted, verdict, verdict_of, clears, work_after, output_after}
use Rattle.banquet.specs.Signer.{tape_of, product_offset_at}
use Rattle.banquet.specs.Opening.{opening}
use Rattle.banquet.specs.Signature.{frame_of}
use Rattle.banquet.specs.Calls.{
  public_key_answer,
  make_public_key,
  sign_answer,
  sign,
  verify_answer,
  open_answer,
  open_execution,
  verify_opening_answer,
  verify_opening,
}
use Rattle.banquet.specs.Card.{has_size, card_text, printed}
use Rattle.toy.specs.Toy.{toy, rows_toy, wide_toy, Row, answers, insert, remove, opening_checked, signature_checked, card_checked}
"""

VERDICTS, LISTS = 'List (Row Verdict)', 'List (Row (List ℕ))'
WITH_WORK = 'List ℕ → '
KINDS = (
    ('calls work', WITH_WORK + VERDICTS, 'the five calls: number and place', call_rows),
    ('slices work', WITH_WORK + LISTS, 'what the lent slices hold afterwards', slice_rows),
    ('openings', VERDICTS, 'checks of openings', opening_rows),
    ('signatures', VERDICTS, 'checks of signatures', signature_rows),
    ('cards', VERDICTS, 'card text', card_rows),
    ('texts', LISTS, 'what is printed; frames; two rows of S-boxes', text_rows),
    ('others', VERDICTS, 'other sets', other_rows),
)


def main():
    out = HEADER
    for t in files:
        out += '\nabbrev pub %s : List ℕ\n%s = %s\n' % (t.text, t.text, listed(t.value))
    for name, type, comment, kind in KINDS:
        out += '\n-- ---- %s\n\nabbrev pub %s : %s\n%s =\n' % (comment, name.split()[0], type, name)
        count = 0
        for row in kind():
            if isinstance(row, str):
                out += '    -- %s\n' % row
                continue
            asked, expected = row
            expected = 'verdict %d %d' % expected if VERDICTS in type else listed(expected)
            out += '    %s(%s, %s)\n' % ('∷ ' if count else '', asked, expected)
            count += 1
        out += '    ∷ []\n'
        print('%3d rows: %s' % (count, comment))
    path = os.path.join(os.path.dirname(os.path.abspath(__file__)), '..', 'crates', 'toy', 'specs', 'Rows.antt')
    with open(path, 'w') as file:
        file.write(out)


if __name__ == '__main__':
    main()
