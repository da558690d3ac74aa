//! Numbers that find fault with a number leaf.

use crate::rng::Rng;
use std::sync::OnceLock;

const SIGN: u64 = 1 << 63;
const INFINITY: u64 = 0x7ff << 52;

/// Neighbour by `ulps` patterns: the sign is kept, infinity and NaN may be met.
pub fn beside(x: f64, ulps: i64) -> f64 {
    let size = (x.to_bits() & !SIGN) as i64;
    let moved = (size + ulps).clamp(0, (INFINITY + 1) as i64) as u64;
    f64::from_bits((x.to_bits() & SIGN) | moved)
}

/// The few numbers that every function is tried at, in every pairing.
pub fn corners() -> &'static [f64] {
    static LIST: OnceLock<Vec<f64>> = OnceLock::new();
    LIST.get_or_init(|| {
        let mut list = vec![0.0, f64::INFINITY, f64::MAX, f64::MIN_POSITIVE];
        list.push(f64::from_bits(1)); // the smallest subnormal, and the largest
        list.push(f64::from_bits((1 << 52) - 1));
        for x in [0.5, 1.0, 1.5, 2.0, 3.0, 4.0, 1e5] {
            list.extend([x, beside(x, 1), beside(x, -1)]);
        }
        for power in [31, 32, 51, 52, 53, 54, 62, 63, 64] {
            let x = 2f64.powi(power);
            list.extend([x, beside(x, 1), beside(x, -1)]);
        }
        let negated: Vec<f64> = list.iter().map(|x| -x).collect();
        list.extend(negated);
        // NaN: quiet and signalling, of both signs, with the least and the full payload.
        for payload in [1, 1 << 51, (1 << 51) + 1, (1 << 52) - 1] {
            list.push(f64::from_bits(INFINITY | payload));
            list.push(f64::from_bits(SIGN | INFINITY | payload));
        }
        list
    })
}

/// Every boundary there is to meet, once: the corners, both ends of every
/// exponent, subnormals of every bit length, and the neighbours of small
/// squares, whole numbers and halves.
pub fn boundaries() -> &'static [f64] {
    static LIST: OnceLock<Vec<f64>> = OnceLock::new();
    LIST.get_or_init(|| {
        let mut list = corners().to_vec();
        for length in 1..=52u64 {
            let low = 1u64 << (length - 1);
            for bits in [low, low + 1, 2 * low - 1, low | (low >> 1)] {
                list.push(f64::from_bits(bits));
                list.push(f64::from_bits(SIGN | bits));
            }
        }
        for exponent in 1..2047u64 {
            for bits in [exponent << 52, (exponent << 52) | ((1 << 52) - 1)] {
                list.push(f64::from_bits(bits));
                list.push(f64::from_bits(SIGN | bits));
            }
        }
        for n in 0..=100 {
            let n = n as f64;
            for x in [n, n + 0.5, n * n, (n + 0.5) * (n + 0.5)] {
                for ulps in -2..=2 {
                    list.push(beside(x, ulps));
                    list.push(beside(-x, ulps));
                }
            }
        }
        list
    })
}

/// A whole number of any bit length up to `longest`, as likely short as long.
fn whole(rng: &mut Rng, longest: u64) -> u64 {
    match rng.below(longest + 1) {
        0 => 0,
        length => (rng.next() | SIGN) >> (64 - length),
    }
}

/// The f64 next to the square of an odd number of 54 bits: its root lies next
/// to the middle of two neighbours, where rounding is decided.
fn beside_a_middle(rng: &mut Rng) -> f64 {
    let odd = (rng.next() >> 10) | (1 << 53) | 1;
    let square = u128::from(odd) * u128::from(odd);
    let drop = 128 - square.leading_zeros() - 53;
    let kept = (square >> drop) as u64;
    let scale = rng.range(-500, 450) as i32;
    beside(kept as f64, rng.range(-1, 2)) * 2f64.powi(2 * scale)
}

/// A number of any kind, above zero or below.
pub fn any(rng: &mut Rng) -> f64 {
    let few = rng.range(-3, 3);
    let x = match rng.below(12) {
        0 => f64::from_bits(rng.next()),
        1 => f64::from_bits(whole(rng, 52)), // subnormal
        2 => {
            // Any exponent, few digits: ties and exact roots live here.
            let fraction = (rng.next() << rng.below(53)) & ((1 << 52) - 1);
            f64::from_bits((rng.below(2047) << 52) | fraction)
        }
        3 => {
            let n = whole(rng, 26) as f64;
            beside(n * n, few) * 2f64.powi(2 * rng.range(-510, 480) as i32)
        }
        4 => {
            let n = whole(rng, 25) as f64 + 0.5;
            beside(n * n, few)
        }
        5 => beside_a_middle(rng),
        6 => beside(whole(rng, 64) as f64, few),
        7 => beside(whole(rng, 53) as f64 + 0.5, few),
        8 => beside(rng.pick(boundaries()), few),
        9 => rng.range(-100_000_000, 100_000_000) as f64 / 1000.0,
        10 => rng.pick(corners()),
        _ => (rng.next() >> 11) as f64 * 2f64.powi(rng.range(-60, 12) as i32),
    };
    if rng.one_in(2) { x } else { -x }
}

/// The call's operand: the boundaries first, and then any.
pub fn one(rng: &mut Rng, call: u64) -> f64 {
    match boundaries().get(call as usize) {
        Some(&x) => x,
        None => any(rng),
    }
}

/// The same, seldom below zero: a root of such a number is soon told.
pub fn seldom_negative(rng: &mut Rng, call: u64) -> f64 {
    let x = one(rng, call);
    let kept = call < boundaries().len() as u64 || rng.one_in(16);
    if kept { x } else { x.abs() }
}

/// Two operands: the corners in every pairing first, then operands that have
/// something to do with each other, and any.
pub fn two(rng: &mut Rng, call: u64) -> (f64, f64) {
    let list = corners();
    let call = call as usize;
    if call < list.len() * list.len() {
        return (list[call / list.len()], list[call % list.len()]);
    }
    let a = any(rng);
    let b = match rng.below(6) {
        0 => a,
        1 => -a,
        2 => beside(a, rng.range(-2, 2)),
        3 => -beside(a, rng.range(-2, 2)),
        _ => any(rng),
    };
    if rng.one_in(2) { (a, b) } else { (b, a) }
}

/// Whole numbers of 64 bits: the powers of two and both sides of them first,
/// then those next to the middle of two f64s.
pub fn bits(rng: &mut Rng, call: u64) -> u64 {
    if call < 64 * 5 {
        return (1u64 << (call / 5)).wrapping_add(call % 5).wrapping_sub(2);
    }
    let n = match rng.below(4) {
        0 => rng.next(),
        1 => whole(rng, 64),
        2 => rng.below(9).wrapping_sub(4),
        _ => {
            let dropped = 1 + rng.below(11);
            let kept = (rng.next() >> 11) | (1 << 52);
            (kept << dropped)
                .wrapping_add(1 << (dropped - 1))
                .wrapping_add(rng.below(3))
                .wrapping_sub(1)
        }
    };
    if rng.one_in(2) { n } else { n.wrapping_neg() }
}

/// A number as it comes in stitch work, for timing: of either sign, up to 100,000.
pub fn plain(rng: &mut Rng) -> f64 {
    let unit = (rng.next() >> 11) as f64 / (1u64 << 53) as f64;
    (unit - 0.5) * 200_000.0
}

pub use coordinates::*;

mod coordinates {
    use super::*;
    use crate::expect::SIZE_LIMIT;
    use std::ops::RangeInclusive;

    /// A coordinate that document 01 accepts, of the kinds that go wrong.
    pub fn coordinate(rng: &mut Rng) -> f64 {
        let x = match rng.below(10) {
            0 | 1 => rng.range(0, 20) as f64,
            2 | 3 => rng.range(0, 10_000) as f64 / 10.0,
            4 => rng.range(0, 400) as f64 / 2.0,
            5 => plain(rng).abs(),
            6 => beside(rng.range(1, 100) as f64 / 2.0, rng.range(-2, 2)),
            7 => rng.pick(&[0.0, 0.0, 5e-324, 2.3e-308, 1e-12, 1e-9]),
            8 => beside(SIZE_LIMIT, -rng.range(0, 1)),
            _ => plain(rng).abs() * 2f64.powi(-rng.range(0, 60) as i32),
        };
        if rng.one_in(2) { x } else { -x }
    }

    /// A coordinate that document 01 turns away.
    pub fn bad_coordinate(rng: &mut Rng) -> f64 {
        let over = beside(SIZE_LIMIT, 1);
        let x = rng.pick(&[f64::NAN, f64::INFINITY, over, over, 1e300, f64::MAX]);
        if rng.one_in(2) { x } else { -x }
    }

    /// Coordinates, one set in so many spoilt.
    pub fn spoil(rng: &mut Rng, list: &mut [f64], one_in: u64) {
        if !list.is_empty() && rng.one_in(one_in) {
            let at = rng.index(list.len());
            list[at] = bad_coordinate(rng);
        }
    }

    /// A setting in the middle of its range, at its ends, or just outside.
    pub fn setting(rng: &mut Rng, range: RangeInclusive<f64>) -> f64 {
        let (lo, hi) = (*range.start(), *range.end());
        match rng.below(16) {
            0 => lo,
            1 => hi,
            2 => beside(lo, rng.range(-1, 1)),
            3 => beside(hi, rng.range(-1, 1)),
            4 if rng.one_in(2) => rng.pick(&[0.0, -0.0, -lo, -hi, f64::NAN, f64::INFINITY]),
            5..=9 => rng.range(lo.ceil() as i64, 60) as f64,
            _ => lo + (plain(rng).abs() / 100_000.0) * 50.0,
        }
    }

    /// A setting outside its range.
    pub fn outside(rng: &mut Rng, range: RangeInclusive<f64>) -> f64 {
        let (lo, hi) = (*range.start(), *range.end());
        let under = beside(lo, if lo < 0.0 { 1 } else { -1 });
        rng.pick(&[
            under,
            beside(hi, 1),
            -1e300,
            1e300,
            f64::NAN,
            f64::INFINITY,
            f64::NEG_INFINITY,
        ])
    }

    /// Cosine and sine: true ones, the tilted quarter turns that an angle in
    /// f64 gives, and both sides of what TURN lets through.
    pub fn turn(rng: &mut Rng) -> (f64, f64) {
        let quarter = std::f64::consts::FRAC_PI_2;
        let angle = match rng.below(3) {
            0 => quarter * rng.range(-4, 4) as f64,
            1 => (rng.range(-720, 720) as f64 / 2.0).to_radians(),
            _ => plain(rng) / 10_000.0,
        };
        let (s, c) = angle.sin_cos();
        match rng.below(16) {
            0 => rng.pick(&[(1.0, 0.0), (0.0, 1.0), (-1.0, -0.0), (0.0, -1.0)]),
            1 => {
                // The squares' sum at a limit of TURN, give or take an ulp: with
                // a sine beside the cosine, the limit itself is met too.
                let limit = rng.pick(&[0.999999f64, 1.000001]);
                let c = 0.1 + plain(rng).abs() / 125_000.0;
                (c, beside((limit - c * c).sqrt(), rng.range(-2, 2)))
            }
            2 => {
                let size = rng.pick(&[0.9999994, 0.9999996, 1.0000004, 1.0000006, 0.5, 0.0]);
                (c * size, s * size)
            }
            3 if rng.one_in(2) => {
                let odd = rng.pick(&[f64::NAN, f64::INFINITY, f64::NEG_INFINITY, f64::MAX]);
                rng.pick(&[(odd, s), (c, odd)])
            }
            _ => (c, s),
        }
    }
}
