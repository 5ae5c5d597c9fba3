#!/usr/bin/env python3
"""Writes vectors/banquet.rsp, known answers in NIST's form: python3 vectors/known_answers.py ORACLE, from the repository's root

ORACLE is the directory of oracle.py, an implementation of document 01 in plain Python that was written apart from this repository. Public keys and
signatures are its make_public_key's and seal's, and its check_seal accepts each. What they are made from is drawn as HEADER says, so the file is the
same each time.
"""
import hashlib
import io
import sys

sys.dont_write_bytecode = True
sys.path.insert(0, sys.argv[1])
import oracle  # noqa: E402

LENGTHS = 0, 1, 33, 66, 99, 132, 165, 198, 231, 4096
HEADER = """\
# Banquet over AES-128 and SHAKE128: 16 parties, 41 executions, m1 = 10, m2 = 20
#
# Case n takes its bytes in this order from SHAKE256 of the ASCII text 'banquet.rsp n', n in decimal: plaintext 16, salt 32, seeds 656,
# msg mlen, then keys of 16 bytes until one meets no zero in AES (is not refused as 11). pk is made from key and plaintext; sig from key, pk,
# msg, salt and seeds. As NIST writes it, an empty msg stands as 00. Made by vectors/known_answers.py.
#
# cases = %d

"""


def draw(n, mlen):
    """Plaintext, salt, seeds, message, key and public key of case n."""
    drawn = io.BytesIO(hashlib.shake_256(b'banquet.rsp %d' % n).digest(10000))
    plaintext, salt, seeds, message = (drawn.read(size) for size in (16, 32, 656, mlen))
    while True:
        key = drawn.read(16)
        made = oracle.make_public_key(key, plaintext)
        if made[0] == 'accepted':
            return plaintext, salt, seeds, message, key, made[1]
        assert made[1] == 11


def digits(value):
    return value.hex().upper() or '00'


with open('vectors/banquet.rsp', 'w', newline='\n') as out:
    out.write(HEADER % len(LENGTHS))
    for n, mlen in enumerate(LENGTHS):
        plaintext, salt, seeds, message, key, public_key = draw(n, mlen)
        made = oracle.seal(key, public_key, message, salt, seeds)
        assert made[0] == 'accepted' and oracle.check_seal(public_key, message, made[1])[0] == 'accepted'
        fields = {'count': n, 'key': key, 'plaintext': plaintext, 'pk': public_key, 'mlen': mlen, 'msg': message, 'salt': salt, 'seeds': seeds,
                  'siglen': len(made[1]), 'sig': made[1]}
        out.writelines('%s = %s\n' % (name, digits(value) if isinstance(value, bytes) else value) for name, value in fields.items())
        out.write('\n')
print(len(LENGTHS), 'cases')
