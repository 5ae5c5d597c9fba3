#!/usr/bin/env python3
"""The scheme of document 01, for any parameter set, hash and circuit, in plain steps. vectors/toy.py uses it.

Written from the document and not copied from the definitions, by someone who had read them before: its names and its order are the document's
("seal" is what the definitions call a signature). Where the document leaves a choice: h3 takes each party's c, a and b before the next party's; a
tape has s and t of one j beside each other; number 13 is looked for in all parties before 14; an odd count of digits is a bad line; a text that
ends behind line n has a bad line n + 1.
"""
import functools
import operator
import sys

sys.dont_write_bytecode = True
from field import Field, byte

WORK = 65536


# ---- bytes

def total(numbers):
    return functools.reduce(operator.xor, numbers, 0)


def add(*strings):
    return bytes(map(total, zip(*strings)))


def number(s):
    return int.from_bytes(s, 'little')


def cut(s, *sizes):
    """The parts of s that have these sizes, which are all of it."""
    parts = []
    for n in sizes:
        parts.append(s[:n])
        s = s[n:]
    assert not s
    return parts


def rows(s, n):
    return [s[i:i + n] for i in range(0, len(s), n)]


class Refused(Exception):
    """Number and place."""


def refuse(when, number, place=0):
    if when:
        raise Refused(number, place)


# ---- the scheme

class Scheme:
    """`hash` takes an input and how many bytes are asked for. `walk` takes the public key without the ciphertext, a key (or a share of it), what
    gives the inverse (or a share of it) for an S-box and its input, and whether public constants are added: it gives the S-boxes' inputs and the
    output."""

    def __init__(self, parties, executions, wide, low, m1, m2, front, hash, walk):
        self.parties, self.executions, self.wide, self.m1, self.m2, self.front = parties, executions, wide, m1, m2, front
        self.hash, self.walk = hash, walk
        self.field = Field(8 * wide, low)
        self.powers = self.field.powers()
        self.sboxes, self.points = m1 * m2, m2 + 1
        self.depth = (parties - 1).bit_length()
        self.first_leaf = 2 ** self.depth - 1
        self.tape_sizes = 16, self.sboxes, 2 * m1 * wide, self.points * wide
        self.frame_sizes = 16 * self.depth, 32, 16, self.sboxes, self.points * wide, wide, m1 * wide, m1 * wide
        self.opening_sizes = (
            32, 1, 32 * parties, 16 * parties, 16, self.sboxes, m1 * wide, self.points * wide, wide, parties * wide, parties * m1 * wide,
            parties * m1 * wide, 1, 16 * self.depth)
        self.seal_sizes = 32, 32, 32, executions * sum(self.frame_sizes)

    # ---- wide elements

    def lift(self, b):
        return total(p for i, p in enumerate(self.powers) if b >> i & 1)

    def dot(self, u, v):
        return total(map(self.field.mul, u, v))

    def value(self, values, x):
        """At x, of the polynomial that has these values at 0, 1, 2, .."""
        return self.dot(values, self.field.lagrange(len(values), x))

    def store(self, *elements):
        return b''.join(v.to_bytes(self.wide, 'little') for v in elements)

    def load(self, s):
        return [number(v) for v in rows(s, self.wide)]

    # ---- draws

    def first_draws(self, h1):
        return rows(self.hash(b'\6' + h1, self.executions * self.m1 * self.wide), self.m1 * self.wide)

    def second_draws(self, h2):
        draws = self.load(self.hash(b'\7' + h2, self.executions * self.wide))
        return [R + self.m2 if R < self.m2 else R for R in draws]

    def hidden_parties(self, h3):
        return [number(v) % self.parties for v in rows(self.hash(b'\x08' + h3, 4 * self.executions), 4)]

    # ---- the tree of seeds

    def below(self, salt, e, seeds):
        """All seeds by node that follow from these."""
        seeds = dict(seeds)
        for v in range(self.first_leaf):
            if v in seeds:
                both = self.hash(b'\5' + salt + bytes([e]) + v.to_bytes(4, 'little') + seeds[v], 32)
                seeds[2 * v + 1], seeds[2 * v + 2] = both[:16], both[16:]
        return seeds

    def siblings(self, hidden):
        """The siblings' nodes, from the top down."""
        v, nodes = self.first_leaf + hidden, []
        while v > 0:
            nodes.insert(0, v + 1 if v % 2 else v - 1)
            v = (v - 1) // 2
        return nodes

    def sibling_seeds(self, salt, e, root, hidden):
        seeds = self.below(salt, e, {0: root})
        return b''.join(seeds[v] for v in self.siblings(hidden))

    def everyone(self, salt, e, root):
        seeds = self.below(salt, e, {0: root})
        return [Party(self, salt, e, i, seeds[self.first_leaf + i]) for i in range(self.parties)]

    def shown(self, salt, e, hidden, sibling_seeds):
        """The parties by number, without the hidden one."""
        seeds = self.below(salt, e, zip(self.siblings(hidden), rows(sibling_seeds, 16)))
        return {i: Party(self, salt, e, i, seeds[self.first_leaf + i]) for i in range(self.parties) if i != hidden}

    # ---- keys

    def check_inputs(self, front, key):
        """Gives the ciphertext."""
        inputs, output = self.walk(front, key, lambda l, x: byte.inverse(x), True)
        refuse(0 in inputs, 11, inputs.index(0) if 0 in inputs else 0)
        return output

    def check_key(self, public_key, key):
        refuse(self.check_inputs(public_key[:self.front], key) != public_key[self.front:], 12)

    # ---- hashes

    def first_hash(self, public_key, message, salt, executions):
        text = b'\1' + public_key + len(message).to_bytes(4, 'little') + message + salt
        for commitments, outputs, key_offset, inverse_offsets in executions:
            text += b''.join(commitments) + b''.join(outputs) + key_offset + inverse_offsets
        return self.hash(text, 32)

    def second_hash(self, h1, offsets):
        return self.hash(b'\2' + h1 + b''.join(offsets), 32)

    def third_hash(self, h2, executions):
        text = b'\3' + h2
        for sums, shares in executions:
            for c, a, b in [sums] + shares:
                text += self.store(c, *a, *b)
        return self.hash(text, 32)

    def product_holds(self, c, a, b):
        return c == self.dot(a, b)

    def sums(self, shares):
        c, a, b = zip(*shares)
        return total(c), [total(v) for v in zip(*a)], [total(v) for v in zip(*b)]


class Party:
    def __init__(self, scheme, salt, e, i, seed):
        self.scheme, self.i = scheme, i
        text = salt + bytes([e, i]) + seed
        self.commitment = scheme.hash(b'\0' + text, 32)
        self.key, self.inverses, points, products = cut(scheme.hash(b'\4' + text, sum(scheme.tape_sizes)), *scheme.tape_sizes)
        self.s, self.t, self.products = scheme.load(points)[::2], scheme.load(points)[1::2], scheme.load(products)

    def run(self, front, key_offset, inverse_offsets):
        """Carries the key share through the circuit."""
        key = self.key
        if self.i == 0:
            key, self.inverses = add(key, key_offset), add(self.inverses, inverse_offsets)
        self.inputs, self.output = self.scheme.walk(front, key, lambda l, x: self.inverses[l], self.i == 0)

    def opened(self, r, offsets, R):
        """The shares of c, a and b."""
        scheme, r, offsets = self.scheme, self.scheme.load(r), self.scheme.load(offsets)
        if self.i == 0:
            p = [total(r)] * scheme.m2 + [v ^ w for v, w in zip(self.products, offsets)]
        else:
            p = [0] * scheme.m2 + self.products
        s, t = polynomials(scheme, r, self.inputs, self.inverses, self.s, self.t)
        return scheme.value(p, R), [scheme.value(v, R) for v in s], [scheme.value(v, R) for v in t]


def polynomials(scheme, r, inputs, inverses, s, t):
    """The values of each S_j and T_j at 0 to m2."""
    m1, rounds = scheme.m1, range(scheme.m2)
    S = [[scheme.field.mul(r[j], scheme.lift(inputs[j + m1 * k])) for k in rounds] + [s[j]] for j in range(m1)]
    T = [[scheme.lift(inverses[j + m1 * k]) for k in rounds] + [t[j]] for j in range(m1)]
    return S, T


class Execution:
    """One execution of a holder of the key."""

    def __init__(self, scheme, key, front, salt, e, root):
        self.scheme, self.parties = scheme, scheme.everyone(salt, e, root)
        inputs, _ = scheme.walk(front, key, lambda l, x: byte.inverse(x), True)
        self.true = inputs, [byte.inverse(x) for x in inputs]
        self.key_offset = add(key, *(p.key for p in self.parties))
        self.inverse_offsets = add(self.true[1], *(p.inverses for p in self.parties))
        for p in self.parties:
            p.run(front, self.key_offset, self.inverse_offsets)

    def committed(self):
        return [p.commitment for p in self.parties], [p.output for p in self.parties], self.key_offset, self.inverse_offsets

    def product_offsets(self, r):
        scheme = self.scheme
        s, t = ([total(v) for v in zip(*points)] for points in ([p.s for p in self.parties], [p.t for p in self.parties]))
        S, T = polynomials(scheme, scheme.load(r), *self.true, s, t)
        out = []
        for n in range(scheme.points):
            x = scheme.m2 + n
            out.append(total(scheme.field.mul(scheme.value(v, x), scheme.value(w, x)) for v, w in zip(S, T)))
            out[n] ^= total(p.products[n] for p in self.parties)
        return scheme.store(*out)

    def opened(self, r, offsets, R):
        return [p.opened(r, offsets, R) for p in self.parties]


# ---- the five calls: number and place; `output` and `work` are written to

def call(answer, output=bytearray(), work=bytearray()):
    try:
        file = answer()
        number, place = 0, 0
        output[:len(file)] = file
    except Refused as refused:
        number, place = refused.args
    if number in (0, 13, 14, 15, 16, 17):
        work[:WORK] = bytes(min(WORK, len(work)))
    return number, place


def make_public_key(scheme, key, plaintext, output):
    def answer():
        refuse(len(key) != 16, 1)
        refuse(len(plaintext) != scheme.front, 2)
        refuse(len(output) < scheme.front + 16, 6)
        return plaintext + scheme.check_inputs(plaintext, key)
    return call(answer, output)


def seal(scheme, key, public_key, message, salt, seeds, output, work):
    def answer():
        refuse(len(key) != 16, 1)
        refuse(len(public_key) != scheme.front + 16, 2)
        refuse(len(message) > 32768, 3)
        refuse(len(salt) != 32, 4)
        refuse(len(seeds) != 16 * scheme.executions, 5)
        refuse(len(output) < sum(scheme.seal_sizes), 6)
        refuse(len(work) < WORK, 7)
        scheme.check_key(public_key, key)
        executions = [Execution(scheme, key, public_key[:scheme.front], salt, e, root) for e, root in enumerate(rows(seeds, 16))]
        h1 = scheme.first_hash(public_key, message, salt, [x.committed() for x in executions])
        r = scheme.first_draws(h1)
        offsets = [x.product_offsets(r[e]) for e, x in enumerate(executions)]
        h2 = scheme.second_hash(h1, offsets)
        shares = [x.opened(*args) for x, *args in zip(executions, r, offsets, scheme.second_draws(h2))]
        h3 = scheme.third_hash(h2, [(scheme.sums(s), s) for s in shares])
        file = salt + h1 + h3
        for e, hidden in enumerate(scheme.hidden_parties(h3)):
            c, a, b = scheme.sums(shares[e])
            file += scheme.sibling_seeds(salt, e, seeds[16 * e:16 * e + 16], hidden) + executions[e].parties[hidden].commitment
            file += executions[e].key_offset + executions[e].inverse_offsets + offsets[e] + scheme.store(c, *a, *b)
        return file
    return call(answer, output, work)


def frame_of(scheme, file, e):
    if e >= scheme.executions or len(file) != sum(scheme.seal_sizes):
        return b''
    start = 96 + e * sum(scheme.frame_sizes)
    return file[start:start + sum(scheme.frame_sizes)]


def check_seal(scheme, public_key, message, file, work):
    def answer():
        refuse(len(public_key) != scheme.front + 16, 2)
        refuse(len(message) > 32768, 3)
        refuse(len(file) != sum(scheme.seal_sizes), 6)
        refuse(len(work) < WORK, 7)
        salt, h1, h3, _ = cut(file, *scheme.seal_sizes)
        frames = [cut(frame_of(scheme, file, e), *scheme.frame_sizes) for e in range(scheme.executions)]
        sums = [(*scheme.load(frame[5]), scheme.load(frame[6]), scheme.load(frame[7])) for frame in frames]
        for e in range(scheme.executions):
            refuse(not scheme.product_holds(*sums[e]), 15, e)
        front, ciphertext = public_key[:scheme.front], public_key[scheme.front:]
        h2 = scheme.second_hash(h1, [frame[4] for frame in frames])
        first, third = [], []
        for e, (hidden, r, R) in enumerate(zip(scheme.hidden_parties(h3), scheme.first_draws(h1), scheme.second_draws(h2))):
            siblings, commitment, key_offset, inverse_offsets, offsets, *_ = frames[e]
            parties = scheme.shown(salt, e, hidden, siblings)
            for p in parties.values():
                p.run(front, key_offset, inverse_offsets)
            commitments, outputs = ([getattr(p, name) for p in parties.values()] for name in ('commitment', 'output'))
            commitments.insert(hidden, commitment)
            outputs.insert(hidden, add(ciphertext, *outputs))
            first.append((commitments, outputs, key_offset, inverse_offsets))
            shares = [p.opened(r, offsets, R) for p in parties.values()]
            shares.insert(hidden, scheme.sums(shares + [sums[e]]))
            third.append((sums[e], shares))
        refuse(scheme.first_hash(public_key, message, salt, first) != h1, 16)
        refuse(scheme.third_hash(h2, third) != h3, 17)
        return b''
    return call(answer, work=work)


def open_execution(scheme, key, public_key, salt, root, r, e, R, hidden, output, work):
    def answer():
        refuse(len(key) != 16, 1)
        refuse(len(public_key) != scheme.front + 16, 2)
        refuse(len(salt) != 32 or len(r) != scheme.m1 * scheme.wide, 4)
        refuse(len(root) != 16, 5)
        refuse(len(output) < sum(scheme.opening_sizes), 6)
        refuse(len(work) < WORK, 7)
        refuse(e >= scheme.executions, 8)
        refuse(hidden >= scheme.parties, 9)
        refuse(R < scheme.m2, 10)
        scheme.check_key(public_key, key)
        x = Execution(scheme, key, public_key[:scheme.front], salt, e, root)
        commitments, outputs, key_offset, inverse_offsets = x.committed()
        offsets = x.product_offsets(r)
        c, a, b = zip(*x.opened(r, offsets, R))
        return b''.join((
            salt, bytes([e]), *commitments, *outputs, key_offset, inverse_offsets, r, offsets, scheme.store(R), scheme.store(*c),
            *(scheme.store(*v) for v in a), *(scheme.store(*v) for v in b), bytes([hidden]), scheme.sibling_seeds(salt, e, root, hidden)))
    return call(answer, output, work)


def check_opening(scheme, public_key, file, work):
    def answer():
        refuse(len(public_key) != scheme.front + 16, 2)
        refuse(len(file) != sum(scheme.opening_sizes), 6)
        refuse(len(work) < WORK, 7)
        salt, e, commitments, outputs, key_offset, inverse_offsets, r, offsets, R, c, a, b, hidden, siblings = cut(file, *scheme.opening_sizes)
        e, R, hidden = e[0], number(R), hidden[0]
        refuse(e >= scheme.executions, 8)
        refuse(hidden >= scheme.parties, 9)
        refuse(R < scheme.m2, 10)
        parties = scheme.shown(salt, e, hidden, siblings)
        for i, p in parties.items():
            refuse(p.commitment != rows(commitments, 32)[i], 13, i)
        outputs = rows(outputs, 16)
        shares = list(zip(scheme.load(c), *(map(scheme.load, rows(v, scheme.m1 * scheme.wide)) for v in (a, b))))
        for i, p in parties.items():
            p.run(public_key[:scheme.front], key_offset, inverse_offsets)
            refuse(p.output != outputs[i] or p.opened(r, offsets, R) != shares[i], 14, i)
        refuse(add(*outputs) != public_key[scheme.front:], 14, scheme.parties)
        refuse(not scheme.product_holds(*scheme.sums(shares)), 15, e)
        return b''
    return call(answer, work=work)


# ---- card text

def card(scheme, text):
    """Number and place."""
    def has(*lengths):
        return lambda digits: digits in lengths

    forms = [has(2 * scheme.front + 32), lambda digits: digits % 2 == 0 and digits <= 65536, has(2 * 96)]
    forms += [has(2 * sum(scheme.frame_sizes))] * scheme.executions
    lines = []
    for n, form in enumerate(forms, 1):
        line, end, text = text.partition(b'\n')
        if not end or line.strip(b'0123456789abcdef') or not form(len(line)):
            return 18, n
        lines.append(bytes.fromhex(line.decode()))
    if text:
        return 18, len(forms) + 1
    return check_seal(scheme, lines[0], lines[1], b''.join(lines[2:]), bytearray(WORK))


def printed(number, place):
    return b'accepted\n' if number == 0 else b'refused %d %d\n' % (number, place)
