//! Whole numbers of any size. A chain of 256 counts can have solutions of five thousand bits before its bounds are looked at.

use std::cmp::Ordering;
use std::ops::{Add, Mul, Neg, Sub};

/// The size has digits of 32 bits, the lowest first and the highest not 0. Zero has no digits, and is not negative.
#[derive(Clone, Debug, PartialEq, Eq)]
pub struct Big {
    negative: bool,
    size: Vec<u32>,
}

impl Big {
    fn new(negative: bool, mut size: Vec<u32>) -> Big {
        while size.last() == Some(&0) {
            size.pop();
        }
        Big { negative: negative && !size.is_empty(), size }
    }

    pub fn is_zero(&self) -> bool {
        self.size.is_empty()
    }

    /// The number as an i64; one that does not fit is a fault of the caller.
    pub fn to_i64(&self) -> i64 {
        assert!(self.size.len() <= 2, "a number of the sheet has at most 64 bits");
        let size = self.size.iter().rev().fold(0i128, |sum, &digit| (sum << 32) + i128::from(digit));
        i64::try_from(if self.negative { -size } else { size }).expect("a number of the sheet fits an i64")
    }

    /// The quotient rounded towards the lower whole number, and the remainder that goes with it.
    pub fn div_floor(&self, divisor: &Big) -> (Big, Big) {
        let (quotient, rest) = divide(&self.size, &divisor.size);
        let quotient = Big::new(self.negative != divisor.negative, quotient);
        let rest = Big::new(self.negative, rest);
        if rest.is_zero() || rest.negative == divisor.negative {
            (quotient, rest)
        } else {
            (&quotient - &Big::from(1), &rest + divisor)
        }
    }

    /// The quotient rounded towards the higher whole number.
    pub fn div_ceil(&self, divisor: &Big) -> Big {
        -&(-self).div_floor(divisor).0
    }

    /// The quotient where the divisor divides, else None.
    pub fn div_exact(&self, divisor: &Big) -> Option<Big> {
        let (quotient, rest) = self.div_floor(divisor);
        rest.is_zero().then_some(quotient)
    }

    /// The remainder from 0 to divisor - 1, for a divisor above 0.
    pub fn modulo(&self, divisor: i64) -> i64 {
        self.div_floor(&Big::from(divisor)).1.to_i64()
    }
}

impl From<i64> for Big {
    fn from(x: i64) -> Big {
        let size = x.unsigned_abs();
        Big::new(x < 0, vec![size as u32, (size >> 32) as u32])
    }
}

impl Neg for &Big {
    type Output = Big;
    fn neg(self) -> Big {
        Big::new(!self.negative, self.size.clone())
    }
}

impl Add for &Big {
    type Output = Big;
    fn add(self, other: &Big) -> Big {
        if self.negative == other.negative {
            return Big::new(self.negative, sum(&self.size, &other.size));
        }
        match compare(&self.size, &other.size) {
            Ordering::Less => Big::new(other.negative, difference(&other.size, &self.size)),
            _ => Big::new(self.negative, difference(&self.size, &other.size)),
        }
    }
}

impl Sub for &Big {
    type Output = Big;
    fn sub(self, other: &Big) -> Big {
        self + &-other
    }
}

impl Mul for &Big {
    type Output = Big;
    fn mul(self, other: &Big) -> Big {
        Big::new(self.negative != other.negative, product(&self.size, &other.size))
    }
}

impl Ord for Big {
    fn cmp(&self, other: &Big) -> Ordering {
        match (self.negative, other.negative) {
            (false, false) => compare(&self.size, &other.size),
            (true, true) => compare(&other.size, &self.size),
            (true, false) => Ordering::Less,
            (false, true) => Ordering::Greater,
        }
    }
}

impl PartialOrd for Big {
    fn partial_cmp(&self, other: &Big) -> Option<Ordering> {
        Some(self.cmp(other))
    }
}

// The sizes: digits without a sign.

fn compare(x: &[u32], y: &[u32]) -> Ordering {
    x.len().cmp(&y.len()).then_with(|| x.iter().rev().cmp(y.iter().rev()))
}

fn sum(x: &[u32], y: &[u32]) -> Vec<u32> {
    let (long, short) = if x.len() < y.len() { (y, x) } else { (x, y) };
    let mut digits = Vec::with_capacity(long.len() + 1);
    let mut carry = 0u64;
    for (i, &digit) in long.iter().enumerate() {
        carry += u64::from(digit) + u64::from(*short.get(i).unwrap_or(&0));
        digits.push(carry as u32);
        carry >>= 32;
    }
    digits.push(carry as u32);
    digits
}

/// x - y, where x is not below y.
fn difference(x: &[u32], y: &[u32]) -> Vec<u32> {
    let mut digits = Vec::with_capacity(x.len());
    let mut borrow = 0i64;
    for (i, &digit) in x.iter().enumerate() {
        let rest = i64::from(digit) - i64::from(*y.get(i).unwrap_or(&0)) - borrow;
        borrow = i64::from(rest < 0);
        digits.push((rest + (borrow << 32)) as u32);
    }
    digits
}

fn product(x: &[u32], y: &[u32]) -> Vec<u32> {
    let mut digits = vec![0u32; x.len() + y.len()];
    for (i, &a) in x.iter().enumerate() {
        let mut carry = 0u64;
        for (j, &b) in y.iter().enumerate() {
            carry += u64::from(a) * u64::from(b) + u64::from(digits[i + j]);
            digits[i + j] = carry as u32;
            carry >>= 32;
        }
        digits[i + y.len()] = carry as u32;
    }
    digits
}

/// Quotient and rest of x by y, which is not 0: long division, as on paper.
fn divide(x: &[u32], y: &[u32]) -> (Vec<u32>, Vec<u32>) {
    assert!(!y.is_empty(), "no division by 0");
    if y.len() == 1 {
        return divide_by_digit(x, y[0]);
    }
    // both shifted, so that the first digit of y is large and the guess below is at most 2 too high
    let shift = y[y.len() - 1].leading_zeros();
    let (mut rest, y) = (shifted(x, shift), shifted(y, shift));
    let y = &y[..y.len() - 1]; // the digit shifted into is 0
    let mut quotient = vec![0; rest.len().saturating_sub(y.len())];
    for at in (0..quotient.len()).rev() {
        quotient[at] = next_digit(&mut rest[at..=at + y.len()], y);
    }
    (quotient, unshifted(rest, shift))
}

/// The digit of the quotient for a part of the rest that has one digit more than y; that many times y is taken off.
fn next_digit(part: &mut [u32], y: &[u32]) -> u32 {
    let top = y.len();
    let first_two = (u64::from(part[top]) << 32) + u64::from(part[top - 1]);
    let mut guess = (first_two / u64::from(y[top - 1])).min(u64::from(u32::MAX));
    let mut taken = product(y, &[guess as u32]);
    while compare_padded(&taken, part) == Ordering::Greater {
        guess -= 1;
        taken = difference(&taken, y);
    }
    part.copy_from_slice(&difference(part, &taken));
    guess as u32
}

/// The order of two sizes with as many digits, the highest of which may be 0.
fn compare_padded(x: &[u32], y: &[u32]) -> Ordering {
    x.iter().rev().cmp(y.iter().rev())
}

fn divide_by_digit(x: &[u32], y: u32) -> (Vec<u32>, Vec<u32>) {
    let mut quotient = vec![0; x.len()];
    let mut rest = 0u64;
    for i in (0..x.len()).rev() {
        rest = (rest << 32) + u64::from(x[i]);
        quotient[i] = (rest / u64::from(y)) as u32;
        rest %= u64::from(y);
    }
    (quotient, vec![rest as u32])
}

/// x · 2^shift for a shift below 32, with one digit more.
fn shifted(x: &[u32], shift: u32) -> Vec<u32> {
    let mut digits = Vec::with_capacity(x.len() + 1);
    let mut carry = 0u64;
    for &digit in x {
        carry += u64::from(digit) << shift;
        digits.push(carry as u32);
        carry >>= 32;
    }
    digits.push(carry as u32);
    digits
}

fn unshifted(mut x: Vec<u32>, shift: u32) -> Vec<u32> {
    let mut above = 0u64;
    for digit in x.iter_mut().rev() {
        let both = (above << 32) + u64::from(*digit);
        above = u64::from(*digit);
        *digit = (both >> shift) as u32;
    }
    x
}

#[cfg(test)]
mod tests {
    use super::*;
    use crate::random::Random;

    fn big(x: i128) -> Big {
        let size = x.unsigned_abs();
        Big::new(x < 0, (0..4).map(|i| (size >> (32 * i)) as u32).collect())
    }

    /// Numbers up to 2^63, the short ones and those next to a power of 2 as likely as the others.
    fn any(random: &mut Random) -> i128 {
        let near = (1i128 << random.between(0, 62)) + i128::from(random.between(-2, 2));
        let size = if random.chance(30) { near } else { i128::from(random.next() >> random.between(1, 63)) };
        i128::from(random.sign()) * size
    }

    #[test]
    fn as_128_bits() {
        let mut random = Random::new(1, 0);
        for _ in 0..100_000 {
            let (x, y, z) = (any(&mut random), any(&mut random), any(&mut random));
            let (p, q) = (x * y, if z == 0 { 1 } else { z });
            assert_eq!(&big(x) + &big(p), big(x + p));
            assert_eq!(&big(x) - &big(p), big(x - p));
            assert_eq!(&big(x) * &big(y), big(p));
            assert_eq!(big(x).cmp(&big(y)), x.cmp(&y));
            assert_eq!(big(p).cmp(&big(x)), p.cmp(&x));
            let floor = p.div_euclid(q) - i128::from(q < 0 && p.rem_euclid(q) != 0);
            assert_eq!(big(p).div_floor(&big(q)), (big(floor), big(p - q * floor)));
            assert_eq!(big(p).div_ceil(&big(q)), big(floor + i128::from(q * floor != p)));
            assert_eq!(big(p).div_exact(&big(q)), (q * floor == p).then(|| big(floor)));
        }
    }

    /// A number of up to that many digits; digits of ones and of zeros are frequent, since there the guesses go wrong.
    fn long(random: &mut Random, digits: i64) -> Big {
        let mut digit = || match random.index(6) {
            0 => random.next() as u32,
            _ => random.pick(&[0, 1, 1 << 31, u32::MAX, u32::MAX - 1]),
        };
        let size: Vec<u32> = (0..digits).map(|_| digit()).collect();
        let length = random.index(size.len() + 1);
        Big::new(random.chance(50), size[..length].to_vec())
    }

    #[test]
    fn long_division() {
        let mut random = Random::new(2, 0);
        for _ in 0..20_000 {
            let (x, y) = (long(&mut random, 40), long(&mut random, 20));
            if y.is_zero() {
                continue;
            }
            let (quotient, rest) = x.div_floor(&y);
            assert_eq!(&(&quotient * &y) + &rest, x);
            assert!(rest.is_zero() || rest.negative == y.negative);
            assert!(compare(&rest.size, &y.size) == Ordering::Less);
            assert_eq!((&x * &y).div_exact(&y), Some(x));
        }
    }

    #[test]
    fn as_i64() {
        for x in [0, 1, -1, i64::MAX, i64::MIN, 1 << 32, -(1 << 32)] {
            assert_eq!(Big::from(x).to_i64(), x);
        }
        assert_eq!((Big::from(-7).modulo(3), Big::from(7).modulo(3), Big::from(-6).modulo(3)), (2, 1, 0));
    }
}
