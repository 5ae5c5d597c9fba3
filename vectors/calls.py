#!/usr/bin/env python3
"""What crates/vectors_calls reads and writes: python3 vectors/calls.py ORACLE, from the repository's root

ORACLE is the directory of oracle.py, an implementation of document 01 in plain Python that was written apart from this repository, with the vectors
that it made: keys, signatures and openings, and altered ones, each with the answer that its tamper.py works out by rule. The answers here are the
oracle's, and are compared with the vectors' own. The calls are those of key.py, signature.py and opening.py beside this file, in this order.
"""
import os
import sys

sys.dont_write_bytecode = True
sys.path.insert(0, sys.argv[1])
import key  # noqa: E402, F401
import signature  # noqa: E402, F401
import opening  # noqa: E402, F401
import lines  # noqa: E402

# the program reads so many lines
assert len(lines.read) < 5000
for name, text in ('stdin', lines.read), ('stdout', lines.written):
    with open(os.path.join('crates/vectors_calls', name), 'w') as out:
        out.writelines(line + '\n' for line in text)
