#!/usr/bin/env python3
"""Holds vectors/banquet.py to another implementation at full size: python3 vectors/agree.py ORACLE

ORACLE is the directory of oracle.py, an implementation of document 01 in plain Python that was written apart from this repository. On document 01's
own set both make a public key, a signature and an opening, and judge these and altered ones. AES on shares, the product of wide elements and the
table of inverses are ORACLE's on both sides, for speed, so they are not compared here.
"""
import functools
import hashlib
import random
import sys

sys.dont_write_bytecode = True
sys.path.append(sys.argv[1])
import banquet  # noqa: E402
import field  # noqa: E402
import oracle  # noqa: E402

random.seed(5)
draw = random.randbytes


def walk(front, key, invert, constants):
    return oracle.walk(oracle.BASE, front, key, invert, constants)


base = banquet.Scheme(16, 41, 4, 0x8d, 10, 20, 16, lambda text, n: hashlib.shake_128(text).digest(n), walk)
base.field.mul = oracle.field(oracle.BASE).mul
base.field.lagrange = functools.lru_cache(None)(base.field.lagrange)
field.byte.inverse = lambda x: oracle.INVERSE[x]


def told(answer):
    return (0, 0) if answer[0] == 'accepted' else answer[1:]


def altered(file):
    at = random.randrange(len(file))
    return file[:at] + bytes([file[at] ^ random.randrange(1, 256)]) + file[at + 1:]


def made(call, size, *lent):
    """What the call writes, where it accepts."""
    output = bytearray(size)
    assert call(base, *lent, output, *work) == (0, 0)
    return bytes(output)


work = []
key = plaintext = bytes(16)
while told(oracle.make_public_key(key, plaintext)) != (0, 0):
    key, plaintext = draw(16), draw(16)
public_key = made(banquet.make_public_key, 32, key, plaintext)
assert public_key == oracle.make_public_key(key, plaintext)[1]

work = [bytearray(banquet.WORK)]
salt, seeds, message = draw(32), draw(656), draw(77)
signature = made(banquet.seal, 19776, key, public_key, message, salt, seeds)
assert signature == oracle.seal(key, public_key, message, salt, seeds)[1]
for s in [signature] + [altered(signature) for _ in range(4)]:
    answer = banquet.check_seal(base, public_key, message, s, *work)
    assert answer == told(oracle.check_seal(public_key, message, s))
    print('signature', *answer)

r, e, R, hidden = draw(40), random.randrange(41), random.randrange(20, 2 ** 32), random.randrange(16)
opening = made(banquet.open_execution, 2554, key, public_key, salt, seeds[:16], r, e, R, hidden)
assert opening == oracle.open_execution(key, public_key, salt, seeds[:16], e, r, R, hidden)[1]
for o in [opening] + [altered(opening) for _ in range(60)]:
    answer = banquet.check_opening(base, public_key, o, *work)
    assert answer == told(oracle.check_opening(public_key, o))
    print('opening', *answer)
