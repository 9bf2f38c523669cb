//! Exact natural numbers.
//!
//! A number is a row of at most 20 limbs of 64 bits, the least first. That reaches beyond 10^385, and
//! the largest value that the arithmetic asks for is below 10^340 (see `nearest.rs`). A result with
//! more limbs is a panic, never a wrong value.

use std::cmp::Ordering;
use std::sync::OnceLock;

const MOST: usize = 20;

/// `limbs[used..]` are zeros and, unless the number is zero, `limbs[used - 1]` is not.
#[derive(Clone, Copy, Debug, PartialEq, Eq)]
pub struct Natural {
    limbs: [u64; MOST],
    used: usize,
}

impl Natural {
    pub const ZERO: Natural = Natural { limbs: [0; MOST], used: 0 };

    pub fn new(value: u64) -> Natural {
        let mut limbs = [0; MOST];
        limbs[0] = value;
        Natural { limbs, used: (value != 0) as usize }
    }

    pub fn is_zero(&self) -> bool {
        self.used == 0
    }

    pub fn plus(&self, other: &Natural) -> Natural {
        let mut sum = Natural::ZERO;
        let mut carry = false;
        for i in 0..self.used.max(other.used) {
            let (partial, first) = self.limbs[i].overflowing_add(other.limbs[i]);
            let (limb, second) = partial.overflowing_add(carry as u64);
            sum.limbs[i] = limb;
            carry = first || second;
        }
        sum.used = self.used.max(other.used);
        if carry {
            sum.push(1);
        }
        sum
    }

    /// The difference; `other` is not the larger one.
    pub fn minus(&self, other: &Natural) -> Natural {
        let mut rest = Natural::ZERO;
        let mut borrow = false;
        for i in 0..self.used.max(other.used) {
            let (partial, first) = self.limbs[i].overflowing_sub(other.limbs[i]);
            let (limb, second) = partial.overflowing_sub(borrow as u64);
            rest.limbs[i] = limb;
            borrow = first || second;
        }
        assert!(!borrow, "a natural number is never negative");
        rest.used = self.used;
        rest.trim();
        rest
    }

    pub fn times_small(&self, factor: u64) -> Natural {
        let mut product = Natural::ZERO;
        let mut carry = 0u64;
        for i in 0..self.used {
            let whole = self.limbs[i] as u128 * factor as u128 + carry as u128;
            product.limbs[i] = whole as u64;
            carry = (whole >> 64) as u64;
        }
        product.used = self.used;
        if carry != 0 {
            product.push(carry);
        }
        product.trim();
        product
    }

    pub fn times(&self, other: &Natural) -> Natural {
        let mut product = Natural::ZERO;
        if self.is_zero() || other.is_zero() {
            return product;
        }
        assert!(self.used + other.used <= MOST, "a product has too many limbs");
        for i in 0..self.used {
            let mut carry = 0u64;
            for j in 0..other.used {
                let whole = self.limbs[i] as u128 * other.limbs[j] as u128
                    + product.limbs[i + j] as u128
                    + carry as u128;
                product.limbs[i + j] = whole as u64;
                carry = (whole >> 64) as u64;
            }
            product.limbs[i + other.used] = carry;
        }
        product.used = self.used + other.used;
        product.trim();
        product
    }

    fn push(&mut self, limb: u64) {
        assert!(self.used < MOST, "a natural number has too many limbs");
        self.limbs[self.used] = limb;
        self.used += 1;
    }

    fn trim(&mut self) {
        while self.used > 0 && self.limbs[self.used - 1] == 0 {
            self.used -= 1;
        }
    }
}

impl Ord for Natural {
    fn cmp(&self, other: &Natural) -> Ordering {
        let (first, second) = (self.limbs[..self.used].iter(), other.limbs[..other.used].iter());
        self.used.cmp(&other.used).then_with(|| first.rev().cmp(second.rev()))
    }
}

impl PartialOrd for Natural {
    fn partial_cmp(&self, other: &Natural) -> Option<Ordering> {
        Some(self.cmp(other))
    }
}

/// 10 to the power `k`, for `k` up to 380.
pub fn power_of_ten(k: usize) -> &'static Natural {
    static TABLE: OnceLock<Vec<Natural>> = OnceLock::new();
    let table = TABLE.get_or_init(|| {
        let mut powers = vec![Natural::new(1)];
        for k in 0..380 {
            powers.push(powers[k].times_small(10));
        }
        powers
    });
    &table[k]
}

#[cfg(test)]
mod tests {
    use super::*;

    #[test]
    fn powers_of_ten_multiply() {
        for i in 0..190 {
            for j in 0..180 {
                assert_eq!(power_of_ten(i).times(power_of_ten(j)), *power_of_ten(i + j));
            }
        }
    }

    #[test]
    fn sums_and_differences_undo_each_other() {
        let far = power_of_ten(300).minus(&Natural::new(1));
        assert!(far < *power_of_ten(300));
        assert_eq!(far.plus(&Natural::new(1)), *power_of_ten(300));
        assert_eq!(far.minus(&far), Natural::ZERO);
        assert!(power_of_ten(120).plus(&Natural::new(1)) > *power_of_ten(120));
    }

    #[test]
    fn products_spread_over_sums() {
        let a = power_of_ten(77).minus(&Natural::new(12_345));
        let b = power_of_ten(61).plus(&Natural::new(u64::MAX));
        let c = power_of_ten(90).minus(power_of_ten(13));
        assert_eq!(a.times(&b.plus(&c)), a.times(&b).plus(&a.times(&c)));
        assert_eq!(a.times_small(u64::MAX), a.times(&Natural::new(u64::MAX)));
    }
}
