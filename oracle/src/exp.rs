//! Document 01's E, put in the place of the platform's `exp` and `expf`.
//!
//! `f64::exp` and `f32::exp` call the C functions of those names, so defining
//! them here is enough. `check` proves at the start of a run that it was.

use std::hint::black_box;

const LOG2_E: u64 = 0x3FF71547652B82FE;
const LN2_HIGH: u64 = 0x3FE62E42FEE00000;
const LN2_LOW: u64 = 0x3DEA39EF35793C76;

/// 1.0 / n!, n from 0 to 13.
const INVERSE_FACTORIALS: [f64; 14] = {
    let mut c = [1.0; 14];
    let mut factorial = 1.0;
    let mut n = 1;
    while n < 14 {
        factorial *= n as f64;
        c[n] = 1.0 / factorial;
        n += 1;
    }
    c
};

pub fn e64(x: f64) -> f64 {
    if x < -708.0 {
        return 0.0;
    }
    if x > 709.0 {
        return f64::INFINITY;
    }
    let t = x * f64::from_bits(LOG2_E);
    let k = (if x < 0.0 { t - 0.5 } else { t + 0.5 }) as i64;
    let kf = k as f64;
    let r = (x - kf * f64::from_bits(LN2_HIGH)) - kf * f64::from_bits(LN2_LOW);
    let mut sum = 0.0;
    for n in (0..14).rev() {
        sum = sum * r + INVERSE_FACTORIALS[n];
    }
    sum * f64::from_bits(((1023 + k) as u64) << 52)
}

pub fn e32(x: f32) -> f32 {
    e64(x as f64) as f32
}

#[unsafe(no_mangle)]
pub extern "C" fn exp(x: f64) -> f64 {
    e64(x)
}

#[unsafe(no_mangle)]
pub extern "C" fn expf(x: f32) -> f32 {
    e32(x)
}

/// Whether `f64::exp` and `f32::exp` are bitwise E: at the edges, around the
/// ties of k, and on some thousands of values between.
pub fn check() -> Result<(), String> {
    let mut xs = vec![
        0.0,
        -0.0,
        f64::MIN_POSITIVE,
        -f64::MIN_POSITIVE,
        f64::INFINITY,
        f64::NEG_INFINITY,
    ];
    for edge in [-708.0f64, 709.0, -745.0, 710.0, 88.0, -104.0, 1.0, -1.0, 0.5, -0.5] {
        xs.extend([edge.next_down(), edge, edge.next_up()]);
    }
    let ln2 = std::f64::consts::LN_2;
    for k in -1022..=1023 {
        let tie = (k as f64 + 0.5) * ln2;
        xs.extend([tie.next_down(), tie, tie.next_up()]);
    }
    let mut s = 0x9E3779B97F4A7C15u64;
    for i in 0..8000 {
        s ^= s << 13;
        s ^= s >> 7;
        s ^= s << 17;
        let unit = (s >> 11) as f64 / (1u64 << 53) as f64 * 2.0 - 1.0;
        xs.push(unit * [1.0, 30.0, 120.0, 720.0][i % 4]);
    }
    for x in xs {
        let (got, want) = (black_box(x).exp(), e64(x));
        if got.to_bits() != want.to_bits() {
            return Err(format!("exp({x:e}) is {got:e}, by document 01 it is {want:e}"));
        }
        let x = x as f32;
        let (got, want) = (black_box(x).exp(), e32(x));
        if got.to_bits() != want.to_bits() {
            return Err(format!("expf({x:e}) is {got:e}, by document 01 it is {want:e}"));
        }
    }
    Ok(())
}

#[cfg(test)]
mod tests {
    use super::*;

    #[test]
    fn e_runs_in_place_of_the_platforms() {
        check().unwrap();
    }

    #[test]
    fn e_at_its_edges() {
        assert_eq!(e64(0.0), 1.0);
        assert_eq!(e64(-0.0), 1.0);
        assert_eq!(e64((-708.0f64).next_down()), 0.0);
        assert_eq!(e64(709.0f64.next_up()), f64::INFINITY);
        assert_eq!(e64(f64::NEG_INFINITY), 0.0);
        assert!(e64(-708.0) > 0.0 && e64(709.0).is_finite());
        assert!((e64(1.0) - std::f64::consts::E).abs() < 1e-15);
        assert!((e64(-708.0).ln() + 708.0).abs() < 1e-9);
        assert!((e64(709.0).ln() - 709.0).abs() < 1e-9);
        assert_eq!(e32(89.0), f32::INFINITY);
        assert_eq!(e32(-104.0), 0.0);
        assert_eq!(e32(1.0), std::f32::consts::E);
    }
}
