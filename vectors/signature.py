"""Messages that crates/vectors_calls signs, and signatures that it checks, for vectors/calls.py. The answers are the oracle's seal's and
check_seal's. Of the second and third vector only the first three altered signatures are taken.
"""
import json
import os
import sys

import oracle
import tamper
from lines import OUTPUT_ROOM, WORK, WORK_ROOM, call

SIGNATURE, MESSAGE = 19776, 32768


def verify(public_key, message, signature, work=WORK):
    answer = oracle.check_seal(public_key, message, signature, work)
    return call('v', answer, public_key=public_key, message=message, file=signature, work=work)


def sign(key, public_key, message, salt, seeds, output=SIGNATURE, work=WORK):
    """The signature, or number and place."""
    answer = oracle.seal(key, public_key, message, salt, seeds, output, work)
    verdict = call('s', answer, output, work, key=key, public_key=public_key, message=message, salt=salt, seeds=seeds)
    return answer[1] if verdict == (0, 0) else verdict


def expected(item):
    return item['expected'].get('number', 0), item['expected'].get('place', 0)


def changes_of(item):
    return [tuple(bytes.fromhex(change[field]) if field == 'hex' else change[field] for field in ('op', 'at', 'length', 'hex') if field in change)
            for change in item['changes']]


vectors = []
for name in ('vector_000.json', 'vector_001.json', 'vector_002.json'):
    with open(os.path.join(sys.argv[1], 'vectors', name)) as file:
        vectors.append(json.load(file))
for i, v in enumerate(vectors):
    public_key, message, signature = (bytes.fromhex(v[field]) for field in ('public_key', 'message', 'seal'))
    key, salt, seeds = (bytes.fromhex(v[field]) for field in ('key', 'salt', 'seeds'))
    assert sign(key, public_key, message, salt, seeds, SIGNATURE + i, WORK + i) == signature
    assert verify(public_key, message, signature, WORK + i) == (0, 0)
    for item in v['tampered_seals'] if i == 0 else v['tampered_seals'][:3]:
        assert verify(public_key, message, tamper.apply(signature, changes_of(item))) == expected(item), item['name']
    for item in v['tampered_inputs'] if i == 0 else []:
        other = bytes(item['message_zero_bytes']) if item['message'] is None else bytes.fromhex(item['message'])
        assert verify(bytes.fromhex(item['public_key']), other, signature) == expected(item), item['name']

# lengths, and the first of two reasons
public_key, message, signature = (bytes.fromhex(vectors[0][field]) for field in ('public_key', 'message', 'seal'))
for n in 0, 31, 33:
    assert verify((public_key + b'\0')[:n], message, signature) == (2, 0)
for work in 0, WORK - 1:
    assert verify(public_key, message, signature, work) == (7, 0)
assert verify(public_key, message, signature, WORK_ROOM) == (0, 0)
assert verify(public_key[:31], bytes(MESSAGE + 1), signature[:-1], 0) == (2, 0)
assert verify(public_key, bytes(MESSAGE + 1), signature[:-1], 0) == (3, 0)
assert verify(public_key, bytes(MESSAGE), signature + b'\0', 0) == (6, 0)
assert verify(public_key, bytes(MESSAGE), signature) == (16, 0)

# messages of 0, 8 and 32,768 bytes; keys that meet a zero, by FIPS 197's example and among the key's last bytes, and a key for another ciphertext
key, salt, seeds = (bytes.fromhex(vectors[0][field]) for field in ('key', 'salt', 'seeds'))
for m in b'', message[:8], bytes(MESSAGE):
    assert verify(public_key, m, sign(key, public_key, m, salt, seeds, OUTPUT_ROOM, WORK_ROOM)) == (0, 0)
assert sign(key, public_key, bytes(MESSAGE + 1), salt, seeds) == (3, 0)
zero, plaintext = bytes(range(16)), bytes.fromhex('00112233445566778899aabbccddeeff')
ciphertext = bytes.fromhex('69c4e0d86a7b0430d8cdb78070b4c55a')
assert sign(zero, plaintext + ciphertext, message, salt, seeds) == (11, 40)
assert sign(zero, plaintext + bytes(16), message, salt, seeds) == (11, 40)
assert sign(key[:14] + b'\0' + key[15:], public_key, message, salt, seeds) == (11, 1)
assert sign(key, public_key[:31] + bytes([public_key[31] ^ 1]), message, salt, seeds) == (12, 0)

# lengths, and the first of two reasons
for k in 0, 15, 17:
    assert sign((key + b'\0')[:k], public_key, message, salt, seeds) == (1, 0)
for k in 0, 31, 33:
    assert sign(key, (public_key + b'\0')[:k], message, salt, seeds) == (2, 0)
    assert sign(key, public_key, message, (salt + b'\0')[:k], seeds) == (4, 0)
for k in 0, 655, 657:
    assert sign(key, public_key, message, salt, (seeds + b'\0')[:k]) == (5, 0)
for k in 0, SIGNATURE - 1:
    assert sign(key, public_key, message, salt, seeds, k) == (6, 0)
for k in 0, WORK - 1:
    assert sign(key, public_key, message, salt, seeds, SIGNATURE, k) == (7, 0)
long, short = bytes(MESSAGE + 1), SIGNATURE - 1
assert sign(zero[:15], public_key[:31], long, salt[:31], seeds[:655], short, 0) == (1, 0)
assert sign(zero, public_key[:31], long, salt[:31], seeds[:655], short, 0) == (2, 0)
assert sign(zero, plaintext + bytes(16), long, salt[:31], seeds[:655], short, 0) == (3, 0)
assert sign(zero, plaintext + bytes(16), message, salt[:31], seeds[:655], short, 0) == (4, 0)
assert sign(zero, plaintext + bytes(16), message, salt, seeds[:655], short, 0) == (5, 0)
assert sign(zero, plaintext + bytes(16), message, salt, seeds, short, 0) == (6, 0)
assert sign(zero, plaintext + bytes(16), message, salt, seeds, SIGNATURE, 0) == (7, 0)
