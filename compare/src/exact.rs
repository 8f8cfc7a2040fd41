//! Exact fractions on 128-bit numbers.

use std::cmp::Ordering;
use std::fmt;
use std::ops::{Add, Mul, Neg, Sub};

/// num / den with den above 0. Not kept in lowest terms.
#[derive(Clone, Copy, Debug)]
pub struct Ratio {
    pub num: i128,
    pub den: i128,
}

impl Ratio {
    pub const ZERO: Ratio = Ratio::whole(0);

    pub const fn whole(n: i128) -> Ratio {
        Ratio { num: n, den: 1 }
    }

    /// n / d, where d is not 0.
    pub fn new(n: i128, d: i128) -> Ratio {
        assert!(d != 0);
        if d < 0 {
            Ratio { num: -n, den: -d }
        } else {
            Ratio { num: n, den: d }
        }
    }

    pub fn floor(self) -> i128 {
        self.num.div_euclid(self.den)
    }

    pub fn ceil(self) -> i128 {
        -(-self.num).div_euclid(self.den)
    }

    pub fn is_whole(self) -> bool {
        self.num % self.den == 0
    }

    /// The same number in lowest terms.
    pub fn lowest(self) -> Ratio {
        let g = gcd(self.num.unsigned_abs(), self.den.unsigned_abs()) as i128;
        Ratio {
            num: self.num / g,
            den: self.den / g,
        }
    }

    pub fn over(self, d: i128) -> Ratio {
        assert!(d > 0);
        Ratio {
            num: self.num,
            den: self.den * d,
        }
    }
}

/// The greatest common divisor, of two numbers that are not both 0.
pub fn gcd(mut x: u128, mut y: u128) -> u128 {
    while y != 0 {
        (x, y) = (y, x % y);
    }
    x
}

impl From<i128> for Ratio {
    fn from(n: i128) -> Ratio {
        Ratio::whole(n)
    }
}

impl Add for Ratio {
    type Output = Ratio;
    fn add(self, other: Ratio) -> Ratio {
        if self.den == other.den {
            return Ratio {
                num: self.num + other.num,
                den: self.den,
            };
        }
        Ratio {
            num: self.num * other.den + other.num * self.den,
            den: self.den * other.den,
        }
    }
}

impl Neg for Ratio {
    type Output = Ratio;
    fn neg(self) -> Ratio {
        Ratio {
            num: -self.num,
            den: self.den,
        }
    }
}

impl Sub for Ratio {
    type Output = Ratio;
    fn sub(self, other: Ratio) -> Ratio {
        self + -other
    }
}

impl Mul for Ratio {
    type Output = Ratio;
    fn mul(self, other: Ratio) -> Ratio {
        Ratio {
            num: self.num * other.num,
            den: self.den * other.den,
        }
    }
}

impl Mul<Ratio> for i128 {
    type Output = Ratio;
    fn mul(self, other: Ratio) -> Ratio {
        Ratio {
            num: self * other.num,
            den: other.den,
        }
    }
}

impl Ord for Ratio {
    fn cmp(&self, other: &Ratio) -> Ordering {
        (self.num * other.den).cmp(&(other.num * self.den))
    }
}

impl PartialOrd for Ratio {
    fn partial_cmp(&self, other: &Ratio) -> Option<Ordering> {
        Some(self.cmp(other))
    }
}

impl PartialEq for Ratio {
    fn eq(&self, other: &Ratio) -> bool {
        self.cmp(other) == Ordering::Equal
    }
}

impl Eq for Ratio {}

impl fmt::Display for Ratio {
    fn fmt(&self, f: &mut fmt::Formatter<'_>) -> fmt::Result {
        let t = self.lowest();
        if t.den == 1 {
            write!(f, "{}", t.num)
        } else {
            write!(f, "{}/{}", t.num, t.den)
        }
    }
}
