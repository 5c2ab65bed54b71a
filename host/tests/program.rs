//! The built programs and the independent implementation answer the same, byte for byte.

mod common;

use common::comparing::{Program, LISTS, TOTALS};
use common::driver;
use common::families::{test_each_family, Pieces};
use common::jobs;
use common::random::Random;
use host::record::ORBIT;

type Family = fn(&mut Random) -> Pieces;

mod lists {
    use super::*;

    test_each_family!(agrees);

    fn agrees(name: &str, family: Family) {
        hold(&LISTS, name, &family(&mut Random::of(name)));
    }

    #[test]
    fn truncated() {
        hold_truncated(&LISTS);
    }
}

mod totals {
    use super::*;

    test_each_family!(agrees);

    fn agrees(name: &str, family: Family) {
        hold(&TOTALS, name, &family(&mut Random::of(name)));
    }

    #[test]
    fn truncated() {
        hold_truncated(&TOTALS);
    }

    /// Windows of every number of days, up to 32.
    #[test]
    fn days() {
        let mut random = Random::of("days");
        let piece = |_| common::lists::job(&mut random).encode().to_vec();
        hold(&TOTALS, "days", &(0..300).map(piece).collect::<Pieces>());
    }
}

/// Both answer the pieces, one behind the other, alike; and the independent implementation answers
/// the stream as it does its pieces.
fn hold(program: &Program, name: &str, pieces: &[Vec<u8>]) {
    let stream = pieces.concat();
    let independent = program.answers(pieces);
    assert!(
        (program.independent)(&stream) == independent.concat(),
        "{name}: a stream, and its pieces"
    );
    let output = driver::built(program.name, &stream);
    if let Some(difference) = program.first_difference(&independent, &output) {
        panic!("{}", program.told(&difference, name, pieces));
    }
}

/// An input that ends after any number of bytes: nothing, a piece of a record, and a record with a
/// piece of the next.
fn hold_truncated(program: &Program) {
    let mut random = Random::of("truncated");
    for length in 0..ORBIT {
        let whole = random.between(0, 2);
        let mut pieces: Pieces = (0..=whole)
            .map(|_| jobs::any(&mut random).encode().to_vec())
            .collect();
        pieces.last_mut().unwrap().truncate(length);
        hold(program, "truncated", &pieces);
    }
}
