//! Document 01, opening: scaled products and parts of a turn.

use host::scaled::{part_of_turn, scaled, scaled3, ONE};

#[test]
fn scaled_products_floor() {
    assert_eq!(scaled(1, 1), 0);
    assert_eq!(scaled(-1, 1), -1);
    assert_eq!(scaled(-ONE, 12345), -12345);
    assert_eq!(scaled(-ONE - 1, 1), -2);
    assert_eq!(scaled(ONE, ONE), ONE);
}

#[test]
fn products_of_three_from_the_left() {
    assert_eq!(scaled3(1, 1, 1 << 60), 0);
    assert_eq!(scaled(1, scaled(1, 1 << 60)), 1);
}

#[test]
fn parts_of_a_turn() {
    assert_eq!(part_of_turn(1_800_000, 7_200_000), 1 << 30);
    assert_eq!(part_of_turn(7_200_000, 7_200_000), 0);
    assert_eq!(part_of_turn(1, 3), 1_431_655_765);
    assert_eq!(part_of_turn(u64::MAX, u32::MAX), 0);
    assert_eq!(part_of_turn(1_999_999_999, 2_000_000_000), 4_294_967_293);
}
