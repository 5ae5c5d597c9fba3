//! Document 01, "Fields and S-boxes": the AES field, the wide field, the lift
//! between them, and interpolation over the wide field.

use crate::counters::count_product;

// ---------------------------------------------------------------- AES field

/// Product in the AES field: bytes modulo X^8 + X^4 + X^3 + X + 1.
pub const fn byte_multiply(a: u8, b: u8) -> u8 {
    let mut product = 0;
    let mut multiple = a; // a times X^bit
    let mut bit = 0;
    while bit < 8 {
        if (b >> bit) & 1 == 1 {
            product ^= multiple;
        }
        multiple = byte_double(multiple);
        bit += 1;
    }
    product
}

/// A byte times X.
pub const fn byte_double(a: u8) -> u8 {
    if a & 0x80 != 0 {
        (a << 1) ^ 0x1b
    } else {
        a << 1
    }
}

/// "Inverses [...] are read from tables of 256 entries"; 0 goes to 0 as in FIPS 197.
pub static INVERSE: [u8; 256] = inverse_table();

const fn inverse_table() -> [u8; 256] {
    let mut table = [0; 256];
    let mut a = 0;
    while a < 256 {
        // a^254 = a^2 * a^4 * ... * a^128
        let mut power = a as u8;
        let mut inverse = 1;
        let mut step = 0;
        while step < 7 {
            power = byte_multiply(power, power);
            inverse = byte_multiply(inverse, power);
            step += 1;
        }
        table[a] = inverse;
        a += 1;
    }
    table
}

/// The linear part of the FIPS 197 affine map.
pub const fn affine_linear(a: u8) -> u8 {
    a ^ a.rotate_left(1) ^ a.rotate_left(2) ^ a.rotate_left(3) ^ a.rotate_left(4)
}

/// The constant of the FIPS 197 affine map.
pub const AFFINE_CONSTANT: u8 = 0x63;

// --------------------------------------------------------------- wide field

/// Product of wide elements: "a 32-bit number, bit i being the coefficient of
/// X^i, modulo X^32 + X^7 + X^3 + X^2 + 1".
#[inline]
pub fn multiply(a: u32, b: u32) -> u32 {
    count_product();
    product(a, b)
}

/// The product itself, four bits of `b` at a time, also for constants.
#[inline]
const fn product(a: u32, b: u32) -> u32 {
    // multiples[n] is a times the polynomial whose coefficients are the bits of n
    let mut multiples = [0u64; 16];
    multiples[1] = a as u64;
    let mut n = 2;
    while n < 16 {
        multiples[n] = multiples[n / 2] << 1;
        multiples[n + 1] = multiples[n] ^ multiples[1];
        n += 2;
    }
    let mut sum = 0;
    let mut shift = 32;
    while shift > 0 {
        shift -= 4;
        sum = (sum << 4) ^ multiples[((b >> shift) & 15) as usize];
    }
    // the first fold leaves degree at most 37, the second at most 31
    fold(fold(sum)) as u32
}

/// Replaces the part from X^32 on by X^32 = X^7 + X^3 + X^2 + 1.
const fn fold(a: u64) -> u64 {
    let high = a >> 32;
    (a & 0xffff_ffff) ^ (high << 7) ^ (high << 3) ^ (high << 2) ^ high
}

/// a^(2^32 - 2), the inverse of a wide element other than 0.
const fn inverse(a: u32) -> u32 {
    let mut power = a;
    let mut inverse = 1;
    let mut step = 0;
    while step < 31 {
        power = product(power, power);
        inverse = product(inverse, power);
        step += 1;
    }
    inverse
}

/// "of the eight wide roots y of y^8 + y^4 + y^3 + y + 1 take the smallest as a number"
const LIFT_ROOT: u32 = 0x40a4_6afa;

/// "byte b lifts to the sum of its bits times powers of y"
pub static LIFT: [u32; 256] = lift_table();

const fn lift_table() -> [u32; 256] {
    let mut table = [0; 256];
    let mut power = 1; // y^bit
    let mut bit = 0;
    while bit < 8 {
        let mut b = 0;
        while b < 256 {
            if (b >> bit) & 1 == 1 {
                table[b] ^= power;
            }
            b += 1;
        }
        power = product(power, LIFT_ROOT);
        bit += 1;
    }
    table
}

/// The lift of a byte.
#[inline]
pub fn lift(b: u8) -> u32 {
    LIFT[usize::from(b)]
}

// ------------------------------------------------------------ interpolation

/// Lagrange weights at one evaluation point x for polynomials given by their
/// values at 0 to N-1; "Points are wide elements with those numbers".
pub struct Weights<const N: usize>([u32; N]);

impl<const N: usize> Weights<N> {
    /// For each point k: the inverse of the product of k + m over the other points m.
    const DENOMINATORS: [u32; N] = {
        let mut denominators = [0; N];
        let mut k = 0;
        while k < N {
            let mut difference_product = 1;
            let mut m = 0;
            while m < N {
                if m != k {
                    difference_product = product(difference_product, (k ^ m) as u32);
                }
                m += 1;
            }
            denominators[k] = inverse(difference_product);
            k += 1;
        }
        denominators
    };

    /// Weight k is the product of (x + m) / (k + m) over the points m other
    /// than k. Nothing is divided by x + k, so x may be one of the points.
    pub fn at(x: u32) -> Self {
        let mut weights = Self::DENOMINATORS;
        let mut below = 1; // product of x + m over m < k
        for (k, weight) in weights.iter_mut().enumerate() {
            *weight = multiply(*weight, below);
            below = multiply(below, x ^ k as u32);
        }
        let mut above = 1; // product of x + m over m > k
        for (k, weight) in weights.iter_mut().enumerate().rev() {
            *weight = multiply(*weight, above);
            above = multiply(above, x ^ k as u32);
        }
        Self(weights)
    }

    /// The value at x of the polynomial with these values at 0 to N-1.
    pub fn evaluate(&self, values: &[u32; N]) -> u32 {
        sum_of_products(&self.0, values)
    }
}

/// The sum over i of a_i times b_i.
pub fn sum_of_products<const N: usize>(a: &[u32; N], b: &[u32; N]) -> u32 {
    let mut sum = 0;
    for (&a, &b) in a.iter().zip(b) {
        sum ^= multiply(a, b);
    }
    sum
}

#[cfg(test)]
mod tests {
    use super::*;

    /// Schoolbook product, one bit and one reduction at a time.
    fn slow_product(a: u32, b: u32) -> u32 {
        let mut sum = 0;
        for bit in (0..32).rev() {
            let carry = sum >> 31;
            sum = (sum << 1) ^ (carry * 0x8d);
            sum ^= ((b >> bit) & 1) * a;
        }
        sum
    }

    /// A simple generator of test values.
    fn numbers(count: usize) -> impl Iterator<Item = u32> {
        let mut state = 1u64;
        (0..count).map(move |_| {
            state = state
                .wrapping_mul(6_364_136_223_846_793_005)
                .wrapping_add(1_442_695_040_888_963_407);
            (state >> 32) as u32
        })
    }

    fn power(a: u32, exponent: u32) -> u32 {
        (0..32).rev().fold(1, |result, bit| {
            let square = multiply(result, result);
            if (exponent >> bit) & 1 == 1 {
                multiply(square, a)
            } else {
                square
            }
        })
    }

    #[test]
    fn starred_cases_of_the_aes_field() {
        assert_eq!(byte_multiply(0x53, 0xca), 1);
        let sbox = |b: u8| affine_linear(INVERSE[usize::from(b)]) ^ AFFINE_CONSTANT;
        assert_eq!(sbox(0x00), 0x63);
        assert_eq!(sbox(0x53), 0xed);
    }

    #[test]
    fn every_table_entry_is_an_inverse() {
        assert_eq!(INVERSE[0], 0);
        for a in 1..=255u8 {
            assert_eq!(byte_multiply(a, INVERSE[usize::from(a)]), 1);
        }
    }

    #[test]
    fn starred_cases_of_the_wide_field() {
        assert_eq!(multiply(0x10000, 0x10000), 0x8d);
        assert_eq!(multiply(0x8000_0000, 2), 0x8d);
        assert_eq!(lift(0), 0);
        assert_eq!(lift(1), 1);
    }

    #[test]
    fn the_window_product_agrees_with_the_schoolbook() {
        let edges = [0, 1, 2, 0x8d, 0x8000_0000, u32::MAX];
        let values: Vec<u32> = edges.into_iter().chain(numbers(200)).collect();
        for &a in &values {
            for &b in &values {
                assert_eq!(multiply(a, b), slow_product(a, b));
            }
        }
    }

    #[test]
    fn wide_inverses() {
        for a in numbers(100).filter(|&a| a != 0) {
            assert_eq!(multiply(a, inverse(a)), 1);
        }
    }

    #[test]
    fn the_lift_root_is_the_smallest_of_eight() {
        // The elements y with y^255 = 1 are the powers of g^((2^32-1)/255) for a
        // suitable g, and all roots are among them.
        let is_root = |y: u32| power(y, 8) ^ power(y, 4) ^ power(y, 3) ^ y ^ 1 == 0;
        let generator = (2..)
            .map(|g| power(g, u32::MAX / 255))
            .find(|&h| power(h, 85) != 1 && power(h, 51) != 1 && power(h, 15) != 1)
            .unwrap();
        let roots: Vec<u32> = (0..255)
            .map(|exponent| power(generator, exponent))
            .filter(|&y| is_root(y))
            .collect();
        assert_eq!(roots.len(), 8);
        assert_eq!(roots.into_iter().min(), Some(LIFT_ROOT));
    }

    #[test]
    fn the_lift_keeps_sums_and_products() {
        for a in 0..=255 {
            for b in 0..=255 {
                assert_eq!(lift(a ^ b), lift(a) ^ lift(b));
                assert_eq!(lift(byte_multiply(a, b)), multiply(lift(a), lift(b)));
            }
        }
    }

    fn interpolation<const N: usize>() {
        let coefficients: Vec<u32> = numbers(N).collect();
        let value = |x: u32| {
            coefficients
                .iter()
                .rev()
                .fold(0, |value, &coefficient| multiply(value, x) ^ coefficient)
        };
        let values: [u32; N] = std::array::from_fn(|k| value(k as u32));
        for x in (0..64).chain(numbers(20)) {
            assert_eq!(Weights::at(x).evaluate(&values), value(x));
        }
    }

    #[test]
    fn interpolation_gives_the_value_also_at_a_point() {
        interpolation::<21>();
        interpolation::<41>();
    }
}
