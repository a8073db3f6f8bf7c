//! Whole numbers in i128: rounding, the greatest common divisor, one congruence.

/// n / d, rounded towards 0. A division in 128 bits is slow, and d is often 1.
pub fn quotient(n: i128, d: i128) -> i128 {
    if d == 1 {
        n
    } else {
        n / d
    }
}

/// n / d where that is whole. One division and a product: a remainder would be a second division.
pub fn exact(n: i128, d: i128) -> Option<i128> {
    let q = n / d;
    (q * d == n).then_some(q)
}

/// n / d, rounded towards the lower whole number.
pub fn floor(n: i128, d: i128) -> i128 {
    let q = n / d;
    if q * d != n && (n < 0) != (d < 0) {
        q - 1
    } else {
        q
    }
}

/// n / d, rounded towards the higher whole number.
pub fn ceiling(n: i128, d: i128) -> i128 {
    -floor(-n, d)
}

/// The greatest common divisor, which is not negative. A remainder of 1 ends the search.
pub fn gcd(a: i128, b: i128) -> i128 {
    let (mut a, mut b) = (a.abs(), b.abs());
    while b > 1 {
        (a, b) = (b, a % b);
    }
    if b == 1 {
        1
    } else {
        a
    }
}

/// The least k ≥ 0 with u·k ≡ v (mod d), and the distance from one such k to the next; none if there is none. d > 0.
pub fn congruence(u: i128, v: i128, d: i128) -> Option<(i128, i128)> {
    let u = u.rem_euclid(d);
    if u == 0 {
        return exact(v, d).map(|_| (0, 1));
    }
    let (g, inverse) = divisor_and_inverse(u, d);
    let (v, period) = (exact(v, g)?, quotient(d, g));
    let k = v.rem_euclid(period) * inverse.rem_euclid(period) % period;
    Some((k, period))
}

/// g, the greatest common divisor of u and d, and an x with u·x ≡ g (mod d). 0 < u < d.
fn divisor_and_inverse(u: i128, d: i128) -> (i128, i128) {
    let (mut r, mut next_r) = (d, u);
    let (mut x, mut next_x) = (0, 1);
    while next_r > 1 {
        let q = r / next_r;
        (r, next_r) = (next_r, r - q * next_r);
        (x, next_x) = (next_x, x - q * next_x);
    }
    if next_r == 1 {
        (1, next_x)
    } else {
        (r, x)
    }
}

#[cfg(test)]
mod tests {
    use super::*;

    #[test]
    fn rounding() {
        assert_eq!([floor(-7, 2), floor(7, -2), floor(-8, 2)], [-4; 3]);
        assert_eq!([floor(7, 2), floor(-7, -2), floor(8, 2)], [3, 3, 4]);
        assert_eq!([ceiling(-7, 2), ceiling(7, -2), ceiling(-6, 2)], [-3; 3]);
        assert_eq!([ceiling(7, 2), ceiling(-7, -2), ceiling(8, 2)], [4; 3]);
    }

    #[test]
    fn divisors() {
        for (a, b) in (-30..=30).flat_map(|a| (-30..=30).map(move |b| (a, b))) {
            let common = (1..=30).filter(|g| a % g == 0 && b % g == 0).max().expect("1 divides both");
            assert_eq!(gcd(a, b), if a == 0 && b == 0 { 0 } else { common }, "{a} and {b}");
        }
    }

    #[test]
    fn congruences() {
        for (u, v, d) in (-9..=9).flat_map(|u| (-9..=9).flat_map(move |v| (1..=12).map(move |d| (u, v, d)))) {
            let mut found = (0..2 * d).filter(|k| (u * k - v) % d == 0);
            let wanted = found.next().map(|first| (first, found.next().map_or(0, |second| second - first)));
            assert_eq!(congruence(u, v, d), wanted, "{u}·k ≡ {v} (mod {d})");
        }
    }
}
