#!/usr/bin/env python3
"""What crates/vectors_field writes, by plain arithmetic: python3 vectors/field.py > crates/vectors_field/stdout

Products by shifting and reducing, inverses by powers, Lagrange's values by their formula with divisions, lifts by a root that is searched for.
"""


class Field:
    def __init__(self, bits, low):
        self.bits, self.modulus = bits, 1 << bits | low

    def mul(self, a, b):
        r = 0
        for i in range(self.bits):
            if b >> i & 1:
                r ^= a << i
        for i in range(2 * self.bits, self.bits - 1, -1):
            if r >> i & 1:
                r ^= self.modulus << (i - self.bits)
        return r

    def power(self, a, n):
        r = 1
        for i in reversed(range(n.bit_length())):
            r = self.mul(r, r)
            if n >> i & 1:
                r = self.mul(r, a)
        return r

    def inverse(self, a):
        return self.power(a, 2 ** self.bits - 2)

    def roots(self):
        """The roots of y^8 + y^4 + y^3 + y + 1, ascending. They lie in the field of 256 elements within this one: among the powers of an
        element of order 255, which is some g to the power of (2^bits - 1) / 255."""
        for g in range(2, 1000):
            h, powers = self.power(g, (2 ** self.bits - 1) // 255), [1]
            while self.mul(powers[-1], h) != 1:
                powers.append(self.mul(powers[-1], h))
            if len(powers) == 255:
                break
        return sorted(y for y in powers if self.power(y, 8) ^ self.power(y, 4) ^ self.power(y, 3) ^ y ^ 1 == 0)

    def powers(self):
        """The first eight powers of the smallest root."""
        y = self.roots()[0]
        return [self.power(y, i) for i in range(8)]

    def lagrange(self, n, x):
        out = []
        for k in range(n):
            v = 1
            for i in range(n):
                if i != k:
                    v = self.mul(v, self.mul(x ^ i, self.inverse(k ^ i)))
            out.append(v)
        return out


byte, f32, f48 = Field(8, 0x1b), Field(32, 0x8d), Field(48, 0x2d)


def lift(powers, b):
    r = 0
    for i in range(8):
        if b >> i & 1:
            r ^= powers[i]
    return r


def dot(u, v):
    r = 0
    for a, b in zip(u, v):
        r ^= f32.mul(a, b)
    return r


def told(values):
    for v in values:
        print('%x' % v)


def main():
    powers = f32.powers()
    for f, a, b in (
            (f32, 0x10000, 0x10000), (f32, 0x80000000, 2), (f32, 0x12345678, 0x9abcdef0), (f32, 0xffffffff, 0xffffffff), (f32, 0, 0xffffffff),
            (f48, 0x1000000, 0x1000000), (f48, 0x800000000000, 2), (f48, 0x123456789abc, 0xfedcba987654),
            (f48, 0xffffffffffff, 0xffffffffffff)):
        told([f.mul(a, b)])
    for b in (0, 1, 2, 0x53, 0x80, 0xff):
        told([byte.inverse(b), lift(powers, b)])
    for f, x in ((f32, 0), (f32, 20), (f32, 33), (f32, 40), (f32, 41), (f32, 0x12345678), (f48, 20), (f48, 0x123456789abc)):
        for n in (21, 41):
            told(f.lagrange(n, x))
    for x in (20, 0x12345678):
        s = [(i * 73 + 5) % 256 for i in range(200)]
        c = f32.lagrange(21, x)
        told(dot([lift(powers, s[j + 10 * k]) for k in range(20)], c) for j in range(10))
    for x in (7, 0xfedcba98):
        told([dot(f32.lagrange(41, 0x89abcdef), f32.lagrange(41, x))])


if __name__ == '__main__':
    main()
