#!/usr/bin/env python3
# What crates/vectors_shake must write, by Python's hashlib. Run at the repository's root:
#   python3 vectors/shake.py > crates/vectors_shake/stdout
# A line is the length of the message, of the pieces that it is absorbed in, and of the output, and the output in hex; the last is a published output.
import hashlib

LINES = [
    (0, 1, 1), (0, 1, 32), (166, 1, 32), (167, 50, 168), (168, 168, 169), (169, 13, 336), (170, 3, 167), (335, 167, 337), (336, 168, 1),
    (337, 8, 656), (1000, 999, 700), (1000, 7, 380), (100000, 1000, 32), (100000, 9973, 336),
]

message = bytes(7 * (i + i // 256) % 256 for i in range(100000))
for length, piece, n in LINES:
    print(length, piece, n, hashlib.shake_128(message[:length]).hexdigest(n))

# NIST's example for FIPS 202 of 1,600 bits, SHAKE128_Msg1600: its published output
PUBLISHED = (
    '131ab8d2b594946b9c81333f9bb6e0ce75c3b93104fa3469d3917457385da037cf232ef7164a6d1eb448c8908186ad852d3f85a5cf28da1ab6fe343817197846'
    '7f1c05d58c7ef38c284c41f6c2221a76f12ab1c04082660250802294fb87180213fdef5b0ecb7df50ca1f8555be14d32e10f6edcde892c09424b29f597afc270'
    'c904556bfcb47a7d40778d390923642b3cbd0579e60908d5a000c1d08b98ef933f806445bf87f8b009ba9e94f7266122ed7ac24e5e266c42a82fa1bbefb7b8db'
    '0066e16a85e0493f07df4809aec084a593748ac3dde5a6d7aae1e8b6e5352b2d71efbb47d4caeed5e6d633805d2d323e6fd81b4684b93a2677d45e7421c2c6ae'
    'a259b855a698fd7d13477a1fe53e5a4a6197dbec5ce95f505b520bcd9570c4a8265a7e01f89c0c002c59bfec6cd4a5c109258953ee5ee70cd577ee217af21fa7'
    '0178f0946c9bf6ca8751793479f6b537737e40b6ed28511d8a2d7e73eb75f8daac912ff906e0ab955b083bac45a8e5e9b744c8506f37e9b4e749a184b30f43eb'
    '188d855f1b70d71ff3e50c537ac1b0f8974f0fe1a6ad295ba42f6aec74d123a7abedde6e2c0711cab36be5acb1a5a11a4b1db08ba6982efccd716929a7741cfc'
    '63aa4435e0b69a9063e880795c3dc5ef3272e11c497a91acf699fefee206227a44c9fb359fd56ac0a9a75a743cff6862f17d7259ab075216c0699511643b6439'
)
assert hashlib.shake_128(b'\xa3' * 200).hexdigest(512) == PUBLISHED
print(PUBLISHED)
