#!/usr/bin/env python3
"""What the programs card, sign_card, public_keys and vectors_card read and write, and samples/: python3 vectors/card.py ORACLE, from the root

ORACLE is the directory of oracle.py, an implementation of document 01 in plain Python that was written apart from this repository, with the vectors
that it made: cards and altered cards, each with what is to be printed of it. Each card of the three vectors, every altered card of the first, and
cards with altered signatures, which are answered by the oracle's check_card_text; also the card of the longest message. What sign_card and public_keys
write follows from the oracle's seal and make_public_key; document 01 has no text for them, so the lines that they refuse stand here by hand. The
samples are signed with the first vector's key, which samples/keys has the public key of; in the altered one a pigment line says 72,5 for 12,5, and the
stranger's is signed with the second vector's key.
"""
import hashlib
import json
import os
import sys

sys.dont_write_bytecode = True
sys.path.insert(0, sys.argv[1])
import oracle  # noqa: E402
import tamper  # noqa: E402

read, written = [], []


def write(program, name, text):
    with open(os.path.join('crates', program, name), 'wb') as file:
        file.write(text)


def number(n):
    return n.to_bytes(3, 'little').hex()


def lend(text):
    global lent
    lent = text
    read.append(b'b%s\n%s\n' % (number(len(text)).encode(), text))


def alter(text):
    """The text that is lent, altered in one place; the same text takes no line."""
    if text == lent:
        return
    least = min(len(text), len(lent))
    a = next((i for i in range(least) if text[i] != lent[i]), least)
    z = next((i for i in range(least - a) if text[-1 - i] != lent[-1 - i]), least - a)
    put = text[a:len(text) - z]
    read.append(('s' + number(a) + number(len(lent) - z - a) + number(len(put)) + put.hex() + '\n').encode())


def answered(kind, text, output):
    alter(text)
    read.append(kind.encode() + b'\n')
    written.append(output)


def line(*parts):
    return b''.join(part.hex().encode() for part in parts) + b'\n'


def refused(number, place):
    return b'refused %d %d\n' % (number, place)


# ---- cards

def card(text):
    output = oracle.check_card_text(text)
    answered('c', text, output if isinstance(output, bytes) else output.encode())
    return written[-1]


vectors, cards = [], []
for i in range(3):
    with open(os.path.join(sys.argv[1], 'vectors', 'vector_%03d.json' % i)) as file:
        vectors.append(json.load(file))
    with open(os.path.join(sys.argv[1], 'vectors', 'vector_%03d.card' % i), 'rb') as file:
        cards.append(file.read())
    lend(cards[i])
    assert card(cards[i]) == b'accepted\n'

v = vectors[0]
key, public_key, message, salt, seeds, signature = (bytes.fromhex(v[name]) for name in ('key', 'public_key', 'message', 'salt', 'seeds', 'seal'))
lend(cards[0])
count = 0
for item in v['tampered_texts']:
    changes = [tuple(bytes.fromhex(c[field]) if field == 'hex' else c[field] for field in ('op', 'at', 'length', 'count', 'hex') if field in c)
               for c in item['changes']]
    assert card(tamper.apply(cards[0], changes)) == item['expected_output'].encode(), item['name']
    count += 1
# what the check of a signature refuses: h1, h3, a sibling seed, a product offset, c of the first frame and of the last, public key, message
for at in (32, 64, 96, 96 + 312, 96 + 396, 96 + 480 * 40 + 396):
    changed = signature[:at] + bytes([signature[at] ^ 1]) + signature[at + 1:]
    card(oracle.write_card_text(public_key, message, changed))
card(oracle.write_card_text(public_key[:31] + bytes([public_key[31] ^ 1]), message, signature))
card(oracle.write_card_text(public_key, message[:-1] + bytes([message[-1] ^ 1]), signature))
# the longest message, a digit more, two more; bytes behind it
longest = bytes(32768)
made = oracle.seal(key, public_key, longest, salt, seeds)
assert made[0] == 'accepted'
text = oracle.write_card_text(public_key, longest, made[1])
assert len(text) == 105196
lend(text)
assert card(text) == b'accepted\n'
card(text[:65] + b'0' + text[65:])
card(text[:65] + b'00' + text[65:])
card(text + b'\n')

# ---- samples

pigments = b'PB29 12,5\nPW6 250\nPY42 0,75\n'
drawn = hashlib.shake_128(b'samples').digest(688)
made = oracle.seal(key, public_key, pigments, drawn[:32], drawn[32:])
assert made[0] == 'accepted'
honest = oracle.write_card_text(public_key, pigments, made[1])
samples = (('honest', honest), ('cut', honest[:20000]),
           ('altered', oracle.write_card_text(public_key, pigments.replace(b'12,5', b'72,5'), made[1])))
lend(honest)
os.makedirs('samples', exist_ok=True)
answers = []
for name, text in samples:
    with open('samples/%s.card' % name, 'wb') as file:
        file.write(text)
    answers.append('%s.card: %s' % (name, card(text).decode()))
stranger, pigments = vectors[1], b'PB29 999,9\nPW6 250\n'
stranger_key = bytes.fromhex(stranger['public_key'])
made = oracle.seal(bytes.fromhex(stranger['key']), stranger_key, pigments, drawn[:32], drawn[32:])
assert made[0] == 'accepted' and stranger_key != public_key
with open('samples/stranger.card', 'wb') as file:
    file.write(oracle.write_card_text(stranger_key, pigments, made[1]))
answers.append('stranger.card: accepted\n')
with open('samples/keys', 'wb') as file:
    file.write(line(public_key))
with open('samples/answers', 'w') as file:
    file.write(''.join(answers))

# ---- requests to sign

request = [key, public_key, message, salt, seeds]
lines = [line(part) for part in request]
text = b''.join(lines)
lend(text)
answered('r', text, cards[0][:120] + b'\n')
for n in range(5):
    # ends before the line, in the line, before its end; a capital; two digits less, and more
    start, end = len(b''.join(lines[:n])), len(b''.join(lines[:n + 1]))
    answered('r', text[:start], refused(18, n + 1))
    answered('r', text[:start + 3], refused(18, n + 1))
    answered('r', text[:end - 1], refused(18, n + 1))
    answered('r', text[:start] + b'A' + text[start + 1:], refused(18, n + 1))
    answered('r', text[:start] + b'0' + text[start:], refused(18, n + 1))
    if n != 2:
        answered('r', text[:start] + b'00' + text[start:], refused(18, n + 1))
        answered('r', text[:start] + text[start + 2:], refused(18, n + 1))
answered('r', text + b'\n', refused(18, 6))
for item in ([bytes(16)] + request[1:], request[:1] + [public_key[:16] + bytes(16)] + request[2:]):
    made = oracle.seal(*item)
    answered('r', b''.join(map(line, item)), refused(*made[1:]))

# ---- pairs of key and plaintext

def pair(key, plaintext):
    made = oracle.make_public_key(key, plaintext)
    return line(made[1]) if made[0] == 'accepted' else refused(*made[1:])


plaintext = public_key[:16]
zeros, fips = bytes(16), (bytes(range(16)), bytes(17 * i for i in range(16)))
text = line(key, plaintext)
lend(text)
answered('p', text, line(public_key))
for pair_of in ((zeros, plaintext), fips):
    answered('p', line(*pair_of), pair(*pair_of))
for bad in (b'', text[:-1], text[1:], text[:-2] + b'\n', b'0' + text, text + text, text[:32] + b' ' + text[32:], text.upper()):
    answered('p', bad, refused(18, 300))

write('vectors_card', 'stdin', b''.join(read))
write('vectors_card', 'stdout', b''.join(written))

# ---- the programs themselves

write('card', 'stdin', cards[0])
write('card', 'stdout', b'accepted\n')
write('sign_card', 'stdin', b''.join(lines))
write('sign_card', 'stdout', cards[0])
pairs = [fips, (key, plaintext), (zeros, plaintext), (bytes.fromhex(vectors[1]['key']), bytes.fromhex(vectors[1]['public_key'])[:16])]
write('public_keys', 'stdin', b''.join(line(*p) for p in pairs) + b'0\n' + line(key, plaintext))
write('public_keys', 'stdout', b''.join(pair(*p) for p in pairs) + refused(18, len(pairs) + 1))
print(count, 'altered cards,', len(written), 'lines')
