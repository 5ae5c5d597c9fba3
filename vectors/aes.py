#!/usr/bin/env python3
"""What crates/vectors_aes writes on crates/vectors_aes/stdin: python3 vectors/aes.py > crates/vectors_aes/stdout

The ciphertexts are the package `cryptography`'s. The S-boxes' inputs are worked out here, by the standard's own steps on words and bytes, and the
ciphertext that these give is compared with the package's.

The lines of stdin: 1 is FIPS 197's Appendix B, 2 its C.1; 3 to 6 are SP 800-38A's F.1.1; 7 to 18 are of zeros, of ones and of single bits; 19 to 23
are from NIST's lists of known answers (GFSbox, KeySbox); 24 to 27 have a zero among the key's bytes 12 to 15, which the first S-boxes are given;
the other 21 were drawn at random.
"""
import os

from cryptography.hazmat.primitives.ciphers import Cipher, algorithms, modes


def times(a, b):
    r = 0
    for i in range(8):
        if b >> i & 1:
            r ^= a
        a = a << 1 ^ (0x11b if a & 0x80 else 0)
    return r


def substitute(x):
    """5.1.1: the inverse, found by trial, and then (5.1)."""
    b = next((y for y in range(256) if times(x, y) == 1), 0)
    bits = [sum(b >> (i + k) % 8 & 1 for k in (0, 4, 5, 6, 7)) + (0x63 >> i & 1) for i in range(8)]
    return sum(bit % 2 << i for i, bit in enumerate(bits))


SBOX = [substitute(x) for x in range(256)]


def add(a, b):
    return [x ^ y for x, y in zip(a, b)]


def encrypt(key, plaintext):
    """The ciphertext, and what each S-box is given: the key schedule's by word, the rounds' by state."""
    words, scheduled, entered = [list(key[4 * i:4 * i + 4]) for i in range(4)], [], []
    rcon = 1
    for i in range(4, 44):
        temp = words[i - 1]
        if i % 4 == 0:
            temp = temp[1:] + temp[:1]
            scheduled.append(temp)
            temp = add([SBOX[x] for x in temp], [rcon, 0, 0, 0])
            rcon = times(rcon, 2)
        words.append(add(words[i - 4], temp))
    keys = [sum(words[4 * n:4 * n + 4], []) for n in range(11)]
    state = add(plaintext, keys[0])
    for n in range(1, 11):
        entered.append(state)
        s = [SBOX[x] for x in state]
        s = [s[(i + 4 * (i % 4)) % 16] for i in range(16)]
        if n < 10:
            rows = [[s[i - i % 4 + (i + k) % 4] for k in range(4)] for i in range(16)]
            s = [times(2, a) ^ times(3, b) ^ c ^ d for a, b, c, d in rows]
        state = add(s, keys[n])
    return state, scheduled, entered


def hexed(s):
    return bytes(s).hex()


here = os.path.dirname(os.path.abspath(__file__))
with open(os.path.join(here, '../crates/vectors_aes/stdin')) as lines:
    pairs = [[bytes.fromhex(word) for word in line.split()] for line in lines]
for key, plaintext in pairs:
    encryptor = Cipher(algorithms.AES(key), modes.ECB()).encryptor()
    ciphertext = encryptor.update(plaintext) + encryptor.finalize()
    output, scheduled, entered = encrypt(key, plaintext)
    assert bytes(output) == ciphertext
    given = sum(scheduled + entered, [])
    print(hexed(ciphertext), hexed(given), given.index(0) if 0 in given else 200)
