//! Document 01, Sine.

use crate::helpers::*;
use host::big::Big;
use host::scaled::ONE;
use host::sine::Sine;
use host::whole::QUARTER;

#[test]
fn the_big_numbers_reckon_right() {
    let big = |n: u128| Big::from(n);
    let (a, b) = (u128::from(u64::MAX), u128::from(u64::MAX) - 7);
    assert_eq!(big(a).times(&big(b)), big(a * b));
    let square = big(u128::MAX).times(&big(u128::MAX)); // 2^256 − 2^129 + 1
    assert_eq!(square.minus(&big(1)).unwrap().plus(&big(1)), square);
    let again = square.plus(&big(u128::MAX)).plus(&big(u128::MAX)); // 2^256 − 1
    let top = big(1 << 127).times(&big(2)).times(&big(1 << 127));
    assert_eq!(again, top.times(&big(2)).minus(&big(1)).unwrap());
    assert!(square < again && big(0) < big(1) && big(1 << 64) > big(a));
    assert_eq!(big(5).minus(&big(6)), None);
    assert_eq!(big(a + 1).minus(&big(1)), Some(big(a)));
    assert_eq!(big(a).plus(&big(1)), big(a + 1));
    assert_eq!(big(0).times(&big(9)), big(0));
}

#[test]
fn the_table_follows_its_rule() {
    let entries = Sine::table().entries();
    for (k, &value) in entries.iter().enumerate() {
        let near = (k as f64 * std::f64::consts::PI / 8192.0).sin() * ONE as f64;
        assert!(
            (value as f64 - near).abs() < 0.5 + 1e-5,
            "entry {k}: {value}"
        );
    }
    assert!(entries.windows(2).all(|pair| pair[0] < pair[1]));
    // Worked out apart from this program, in exact fractions.
    assert_eq!(entries[1], 411_775);
    assert_eq!(entries[4095], 1_073_741_745);
    assert_eq!(entries.iter().sum::<i64>(), 2_800_420_205_319);
}

#[test]
fn sine_between_entries() {
    let sine = Sine::table();
    assert_eq!(sine.sin(1 << 17), 411_775 / 2);
    assert_eq!(sine.sin(1), 1);
    assert_eq!(sine.sin(QUARTER - 1), (1 << 30) - 1);
    assert_eq!(sine.sin(QUARTER + 1), (1 << 30) - 1);
    assert_eq!(sine.sin((1 << 31) + 1), -1);
    assert_eq!(sine.sin(u32::MAX), -1);
    assert_eq!(sine.cos(0), ONE);
    assert_eq!(sine.cos(3 << 30), 0);
    assert_eq!(sine.cos(1 << 31), -ONE);
    let mut random = Random::of("sine_between_entries");
    for _ in 0..10_000 {
        let theta = random.bits() as u32;
        let (k, s) = ((theta & (QUARTER - 1)) >> 18, sine.sin(theta));
        let turned = |k: u32| sine.sin((theta & !(QUARTER - 1)).wrapping_add(k << 18));
        let (one, other) = (turned(k), turned(k + 1));
        assert!(
            one.min(other) <= s && s <= one.max(other),
            "{theta}: not between its entries"
        );
        assert_eq!(s, -sine.sin(theta.wrapping_neg()));
        // A chord is short of the sine by up to (π/8192)²/8 = 1.84·10^-8, and the two roundings by up to 1.4·10^-9.
        let real = (f64::from(theta) / 2f64.powi(32) * std::f64::consts::TAU).sin();
        assert!((s as f64 / ONE as f64 - real).abs() < 2e-8, "{theta}");
    }
}

/// Document 02, wish 5: the edges of a slow, high orbit. A round orbit in one plane with the far body is hidden where it is
/// within asin(R/a) of the point opposite to the body.
///
/// A reading is short by up to (π/8192)²/8 of itself, so 1.84·10^-8. Those of E, sine and cosine, are short by the same part,
/// which only brings the craft nearer by some metres. Those of the body's direction make d² short by up to twice that part of a²,
/// 2.3·10^9 m², and the floors and roundings in d, up to 2.5 m, move d² by up to 1.25·10^9 m², most of that the other way.
/// Beside R 2.3 and 0.25·10^9 m² are 0.21 km, for which the craft takes 0.27 s. With 1,025 entries the first is sixteen times as much.
#[test]
fn edges_of_a_slow_high_orbit() {
    let (axis, period, radius) = (250_000.0f64, 2_000_000.0, 6_052.0);
    let half = (radius / axis).asin().to_degrees();
    let ms = |degrees: f64| degrees / 360.0 * period * 1000.0;
    for k in 0..200 {
        let middle = 10.0 + 1.763 * f64::from(k);
        let mut job = job7_in(ms(middle - 5.0) as u64, ms(middle + 5.0) as u64, 1_000_000);
        (job.fields[0], job.fields[5], job.fields[6]) = (axis, period, radius);
        job.fields[7] = (middle + 180.0) % 360.0;
        let [shadow] = run(&job).1[..] else {
            panic!("{job:?}")
        };
        let off = [
            shadow.first as f64 - ms(middle - half),
            shadow.last as f64 - ms(middle + half),
        ];
        assert!(off.iter().all(|ms| ms.abs() < 300.0), "{off:?} ms, {job:?}");
    }
}
