//! The factor, bracketed over the whole table by the paper's rule with exact
//! arithmetic.

use std::cmp::Ordering;

use second::factor::factor;

/// A whole number from 0 up, as 32-bit digits, the lowest first.
#[derive(Clone, PartialEq, Eq)]
struct Natural(Vec<u32>);

impl Natural {
    fn from(mut value: u64) -> Natural {
        let mut digits = Vec::new();
        while value > 0 {
            digits.push(value as u32);
            value >>= 32;
        }
        Natural(digits)
    }

    fn times(&self, other: u64) -> Natural {
        let mut digits = Vec::new();
        let mut carry: u128 = 0;
        for &digit in &self.0 {
            carry += u128::from(digit) * u128::from(other);
            digits.push(carry as u32);
            carry >>= 32;
        }
        while carry > 0 {
            digits.push(carry as u32);
            carry >>= 32;
        }
        Natural(digits)
    }

    fn plus(&self, other: &Natural) -> Natural {
        let mut digits = Vec::new();
        let mut carry: u64 = 0;
        for i in 0..self.0.len().max(other.0.len()) {
            let digit = |of: &Natural| u64::from(of.0.get(i).copied().unwrap_or(0));
            carry += digit(self) + digit(other);
            digits.push(carry as u32);
            carry >>= 32;
        }
        if carry > 0 {
            digits.push(carry as u32);
        }
        Natural(digits)
    }

    fn compare(&self, other: &Natural) -> Ordering {
        let by_length = self.0.len().cmp(&other.0.len());
        by_length.then_with(|| self.0.iter().rev().cmp(other.0.iter().rev()))
    }

    fn at_least(&self, other: &Natural) -> bool {
        self.compare(other) != Ordering::Less
    }
}

/// A partial sum of the series for exp(-y), as (added - subtracted) / below,
/// where y is p / q.
struct PartialSum {
    p: u64,
    q: u64,
    terms: u64,
    power: Natural,
    added: Natural,
    subtracted: Natural,
    below: Natural,
}

impl PartialSum {
    fn one_term(p: u64, q: u64) -> PartialSum {
        PartialSum {
            p,
            q,
            terms: 1,
            power: Natural::from(1),
            added: Natural::from(1),
            subtracted: Natural::from(0),
            below: Natural::from(1),
        }
    }

    fn add_term(&mut self) {
        let k = self.terms;
        let widen = |number: &Natural| number.times(self.q).times(k);
        self.added = widen(&self.added);
        self.subtracted = widen(&self.subtracted);
        self.below = widen(&self.below);
        self.power = self.power.times(self.p);
        if k.is_multiple_of(2) {
            self.added = self.added.plus(&self.power);
        } else {
            self.subtracted = self.subtracted.plus(&self.power);
        }
        self.terms += 1;
    }

    fn ends_on_added(&self) -> bool {
        self.terms % 2 == 1
    }

    fn is_at_least_millionths(&self, n: u64) -> bool {
        let bound = self.below.times(n).plus(&self.subtracted.times(1_000_000));
        self.added.times(1_000_000).at_least(&bound)
    }
}

fn series(tenths: i16) -> PartialSum {
    let c = tenths as u64;
    PartialSum::one_term(
        1_517_500_000 * (3016 - 10 * c),
        60_237_892 * (27_300 + 10 * c),
    )
}

/// The paper's rule, with partial sums of 4 to 30 terms.
fn is_factor(tenths: i16, n: u64) -> bool {
    let mut sum = series(tenths);
    let (mut from_below, mut from_above) = (false, false);
    while sum.terms < 30 {
        sum.add_term();
        if sum.terms < 4 {
            continue;
        }
        if sum.ends_on_added() {
            from_above |= !sum.is_at_least_millionths(n + 1);
        } else {
            from_below |= sum.is_at_least_millionths(n);
        }
    }
    from_below && from_above
}

#[test]
fn all_252_factors_are_bracketed() {
    for tenths in 50..=301 {
        let n = u64::from(factor(tenths));
        assert!(is_factor(tenths, n), "{tenths}: {n}");
    }
}

#[test]
fn the_bracket_turns_down_the_neighbours() {
    for tenths in [50, 51, 200, 300, 301] {
        let n = u64::from(factor(tenths));
        assert!(!is_factor(tenths, n - 1), "{tenths}");
        assert!(!is_factor(tenths, n + 1), "{tenths}");
    }
}

#[test]
fn figures_of_the_paper() {
    assert_eq!(factor(49), 104_000);
    assert!((102_000..=103_000).contains(&factor(50)));
    assert!((417_000..=418_000).contains(&factor(200)));
    assert!((995_000..=996_000).contains(&factor(301)));
    assert_eq!(factor(302), 1_000_000);
}

#[test]
fn cold_and_hot_are_flat_and_every_temperature_has_a_factor() {
    for tenths in i16::MIN..50 {
        assert_eq!(factor(tenths), 104_000);
    }
    for tenths in 302..=i16::MAX {
        assert_eq!(factor(tenths), 1_000_000);
    }
}

#[test]
fn the_factor_drops_at_five_degrees_and_rises_from_there() {
    assert!(factor(50) < factor(49));
    for tenths in 50..302 {
        assert!(factor(tenths) < factor(tenths + 1), "{tenths}");
    }
}

#[test]
fn the_natural_numbers_of_this_test_compute() {
    let big = u64::MAX - 4;
    let wide = Natural::from(big).times(big).plus(&Natural::from(big));
    let expected = u128::from(big) * u128::from(big) + u128::from(big);
    let value = wide
        .0
        .iter()
        .rev()
        .fold(0, |value, &digit| value << 32 | u128::from(digit));
    assert_eq!(value, expected);
    assert_eq!(wide.compare(&Natural::from(big)), Ordering::Greater);
    assert!(Natural::from(0).at_least(&Natural::from(0)));
    assert!(!Natural::from(7).at_least(&Natural::from(8)));
}
