#!/usr/bin/env python3
"""The tables of numbers that stand in the sources, computed by plain arithmetic and compared: python3 vectors/tables.py

It prints each table that differs, where it stands and what it ought to be, or "all tables agree". With the word `all` it prints every
table and where it stands.
"""
import os
import re
import sys

sys.dont_write_bytecode = True
from field import byte, f32, f48, lift

CRATES = os.path.join(os.path.dirname(os.path.abspath(__file__)), '..', 'crates')


def undo(f):
    """The images of 1, X, X^2, .. under a linear map that takes a a + a to a but for bit 0. One degree is that of no a a + a: there the map
    is free, and 0 is taken."""
    rows = {}  # by degree: a a + a, and a

    def reduce(v, a):
        while v and v.bit_length() - 1 in rows:
            w, b = rows[v.bit_length() - 1]
            v, a = v ^ w, a ^ b
        return v, a

    for i in range(1, f.bits):
        v, a = reduce(f.mul(1 << i, 1 << i) ^ 1 << i, 1 << i)
        rows[v.bit_length() - 1] = v, a
    free, = set(range(f.bits)) - set(rows)
    rows[free] = 1 << free, 0
    return [reduce(1 << i, 0)[1] for i in range(f.bits)]


def weights(f, n):
    """One over the product of k - i over the points i < n other than k."""
    out = []
    for k in range(n):
        product = 1
        for i in range(n):
            if i != k:
                product = f.mul(product, k ^ i)
        out.append(f.inverse(product))
    return out


def numeral(name):
    return r'\n%s =(\s+\w+)\n' % name


def listed(name):
    return r'\n%s =([^\[]*)\[\]' % name


def const(name):
    return r'\n(?:const|static) %s: \[\w+; \d+\] = \[([^\]]*)\]' % name


def arm(name):
    return r'\n *Field::%s => \[([^\]]*)\]' % name


def tables():
    """File, name, a pattern that finds the table there, and its entries."""
    yield 'inverses/src/lib.rt', 'INVERSE', const('INVERSE'), [byte.inverse(a) for a in range(256)]
    yield 'field/specs/Byte.antt', 'table8', listed('table8'), undo(byte)
    for f, n in ((f32, 32), (f48, 48)):
        spec, roots, powers = '%s/specs/Wide%d.antt' % ('field' if n == 32 else 'wide48', n), f.roots(), f.powers()
        # what shows that it is a field, beside the proof
        shown = 'field/proofs/Wide32.antt' if n == 32 else spec
        yield shown, 'table%d' % n, listed('table%d' % n), undo(f)
        yield spec, 'y%d' % n, numeral('y%d' % n), roots[:1]
        yield shown, 'others%d' % n, listed('others%d' % n), roots[1:]
        yield spec, 'powers%d' % n, listed('powers%d' % n), powers
        # the code reads the powers of 32 bits from the table of lifts
        if n == 32:
            yield 'lifts/src/lib.rt', 'LIFT32', const('LIFT32'), [lift(powers, b) for b in range(256)]
        else:
            yield 'lifts/src/lib.rt', 'the powers of Field::Bits%d' % n, arm('Bits%d' % n), powers
        for k in (21, 41):
            w = weights(f, k)
            spec = '%s/specs/Weights%d.antt' % ('weights' if n == 32 else 'weights48', n)
            yield spec, 'weights%dx%d' % (n, k), listed('weights%dx%d' % (n, k)), w
            yield 'lagrange_points/src/lib.rt', 'WEIGHTS%d_%d' % (n, k), const('WEIGHTS%d_%d' % (n, k)), w


def main():
    agree = True
    for file, name, pattern, entries in tables():
        with open(os.path.join(CRATES, file)) as source:
            found = re.findall(pattern, source.read())
        same = len(found) == 1 and [int(x, 0) for x in re.findall(r'\w+', found[0])] == entries
        if not same or 'all' in sys.argv[1:]:
            print('crates/%s, %s%s:' % (file, name, '' if same else ', differs; it should be'), *entries)
        agree = agree and same
    if agree:
        print('all tables agree')
    sys.exit(not agree)


if __name__ == '__main__':
    main()
