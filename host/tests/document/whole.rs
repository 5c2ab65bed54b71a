//! Document 01, From floats to whole numbers.

use host::whole::{angle, eccentricity, metres, milliseconds, Whole};

#[test]
fn nearest_is_exact_and_halves_go_up() {
    assert_eq!(metres(100.0625), 100_063); // 100,062.5 exactly
    assert_eq!(metres(100.0015), 100_001); // a float product says 100,001.5
    assert_eq!(metres(250_000.0), 250_000_000);
    assert_eq!(milliseconds(60.0), 60_000);
    assert_eq!(milliseconds(2_000_000.0), 2_000_000_000);
    let half = 2f64.powi(-31);
    assert_eq!(eccentricity(half), 1);
    assert_eq!(eccentricity(half.next_down()), 0);
    assert_eq!(eccentricity(3.0 * half), 2);
    assert_eq!(eccentricity(f64::from_bits(1)), 0);
    assert_eq!(eccentricity(-0.0), 0);
}

#[test]
fn angles_wrap_and_negate() {
    assert_eq!(angle(359.9999999999), 0);
    assert_eq!(angle(360f64.next_down()), 0);
    assert_eq!(angle(180.0), 1 << 31);
    assert_eq!(angle(-90.0), 3 << 30);
    assert_eq!(angle(-1.0), 0u32.wrapping_sub(11_930_465));
    assert_eq!(angle(-0.0), 0);
    let half_unit = 45.0 / 2f64.powi(30);
    assert_eq!(angle(half_unit), 1);
    assert_eq!(angle(-half_unit), u32::MAX); // its magnitude's units, negated
    assert_eq!(angle(half_unit.next_down()), 0);
}

#[test]
fn fields_become_whole_numbers_in_their_places() {
    let fields = [
        100.0, 0.5, 1.0, 2.0, 3.0, 60.0, 7.0, 4.0, -5.0, -6.0, 8.0, 9.0, 10.0,
    ];
    let expected = Whole {
        a: 100_000,
        e: 1 << 29,
        inclination: angle(1.0),
        node: angle(2.0),
        argument: angle(3.0),
        p: 60_000,
        R: 7000,
        ascension: angle(4.0),
        declination: angle(-5.0),
        latitude: angle(-6.0),
        longitude: angle(8.0),
        greenwich: angle(9.0),
        elevation: angle(10.0),
    };
    assert_eq!(Whole::of(&fields), expected);
}
