"""Public keys that crates/vectors_calls makes, for vectors/calls.py. The answers are the oracle's; its ciphertexts are compared with the package
`cryptography`'s.

The calls: 1 is document 01's example, FIPS 197's key and plaintext; 2 to 5 have a zero among the key's bytes 12 to 15; 6 to 12 have each length in
turn below and above the call's; 13 to 16 are refused for the first of several reasons; the other 20 are drawn from SHAKE128.
"""
import hashlib

from cryptography.hazmat.primitives.ciphers import Cipher, algorithms, modes

import oracle
from lines import call

EXAMPLE = bytes(range(16)), bytes(range(0, 256, 17))
DRAWN = hashlib.shake_128(b'public keys').digest(20 * 32)
PAIRS = [(DRAWN[i:i + 16], DRAWN[i + 16:i + 32]) for i in range(0, len(DRAWN), 32)]
# the first meets no zero
GOOD = PAIRS[0]
assert 0 not in GOOD[0] and oracle.make_public_key(*GOOD)[0] == 'accepted'


def zero_at(i):
    """That pair with a zero at the key's byte i."""
    return GOOD[0][:i] + b'\0' + GOOD[0][i + 1:], GOOD[1]


cases = [(16, 16, 32, EXAMPLE)]
cases += [(16, 16, 32, zero_at(i)) for i in (12, 13, 14, 15)]
cases += [(*lengths, GOOD) for lengths in ((15, 16, 32), (17, 16, 32), (16, 15, 32), (16, 17, 32), (16, 16, 31), (16, 16, 32), (16, 16, 40))]
cases += [(15, 15, 31, GOOD), (16, 15, 31, GOOD), (16, 16, 31, EXAMPLE), (0, 0, 0, GOOD)]
cases += [(16, 16, 32, pair) for pair in PAIRS]

for k, p, n, (key, plaintext) in cases:
    # a 17th byte, for the lengths of 17
    key, plaintext = (key + b'\x55')[:k], (plaintext + b'\x66')[:p]
    answer = oracle.make_public_key(key, plaintext, n)
    if call('k', answer, key=key, public_key=plaintext, output=n) == (0, 0):
        encryptor = Cipher(algorithms.AES(key), modes.ECB()).encryptor()
        assert answer[1] == plaintext + encryptor.update(plaintext) + encryptor.finalize()
