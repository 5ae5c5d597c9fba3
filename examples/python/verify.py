#!/usr/bin/env python3
"""Checks a card by way of ctypes. From the repository's root, after `make shared`:

    python3 examples/python/verify.py target/shared/libbanquet.so KEY samples/honest.card

KEY is the public key that you trust, in 64 digits: a card holds under the key on its first line, which anyone can make. The first argument may be left
out if BANQUET_SO names the shared object. Prints `accepted`, or `refused` with a number and a place as in include/banquet.h, or `refused: another
key`; ends with 0 only if it accepts.
"""
import ctypes
import os
import sys

*so, key, card = sys.argv[1:]
verify_card = ctypes.CDLL(so[0] if so else os.environ['BANQUET_SO']).banquet_verify_card
verify_card.argtypes = ctypes.c_char_p, ctypes.c_size_t, ctypes.c_char_p, ctypes.c_size_t
verify_card.restype = ctypes.c_uint32
with open(card, 'rb') as file:
    text = file.read()
if text.split(b'\n')[0] != key.lower().encode():
    print('refused: another key')
    sys.exit(1)
work = ctypes.create_string_buffer(65536)  # BANQUET_WORK_BYTES
answer = verify_card(text, len(text), work, len(work))
print('refused %d %d' % divmod(answer, 65536) if answer else 'accepted')
sys.exit(answer != 0)
