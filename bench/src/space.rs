//! What is left of a group's lowest count x, and another count expressed by it (document 000, sections 3 and 4).

use crate::arithmetic::{ceiling, congruence, exact, floor, gcd, quotient};
use crate::job::Count;

/// y = (p·x + o) / d, with d > 0 and no common factor of p and d.
#[derive(Clone, Copy)]
pub struct Expression {
    pub p: i128,
    pub o: i128,
    pub d: i128,
}

impl Expression {
    /// x itself.
    pub const LOWEST: Expression = Expression { p: 1, o: 0, d: 1 };

    /// z, from a·y + b·z = c. None where that leaves no whole z for any whole x.
    pub fn across(self, a: i128, b: i128, c: i128) -> Option<Expression> {
        let (p, o, d) = (-a * self.p, c * self.d - a * self.o, b * self.d);
        let g = gcd(p, d) * d.signum();
        if g == 1 {
            return Some(Expression { p, o, d });
        }
        exact(o, g).map(|o| Expression { p: p / g, o, d: d / g })
    }

    /// Where x makes it whole.
    pub fn at(self, x: i128) -> i128 {
        quotient(self.p * x + self.o, self.d)
    }
}

/// The numbers low, low + t, low + 2t, .. that are not above high: there is at least one.
#[derive(Clone, Copy)]
pub struct Space {
    pub low: i128,
    pub high: i128,
    pub t: i128,
}

impl Space {
    /// None where nothing is left, here and below.
    pub fn new(count: Count) -> Option<Space> {
        (count.low <= count.high).then_some(Space { low: count.low.into(), high: count.high.into(), t: 1 })
    }

    pub fn fits(self) -> i128 {
        quotient(self.high - self.low, self.t) + 1
    }

    pub fn has_several(self) -> bool {
        self.low + self.t <= self.high
    }

    /// Those for which the expression is whole and within the bounds of its count.
    pub fn restricted(self, y: Expression, count: Count) -> Option<Space> {
        let (k, period) = match y.d {
            1 => (0, 1),
            d => congruence(y.p * self.t, -(y.o + y.p * self.low), d)?,
        };
        let (mut low, t) = (self.low + self.t * k, self.t * period);
        let (from, to) = translated(y, count);
        if low < from {
            low += ceiling(from - low, t) * t;
        }
        let high = self.high.min(to);
        (low <= high).then_some(Space { low, high, t })
    }
}

/// The bounds of y as bounds of x: a negative p turns them round.
fn translated(y: Expression, count: Count) -> (i128, i128) {
    let (low, high) = (i128::from(count.low) * y.d - y.o, i128::from(count.high) * y.d - y.o);
    if y.p > 0 {
        (ceiling(low, y.p), floor(high, y.p))
    } else {
        (ceiling(high, y.p), floor(low, y.p))
    }
}
