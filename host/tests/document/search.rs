//! Document 01, The list: the finder, which sees only the yes or no.

use host::search::{find, halve, Found, Window};
use std::cell::Cell;

#[test]
fn halving_finds_neighbours() {
    for change in 1..=1000 {
        let (low, high, halvings) = halve(0, 1000, false, &|t| t >= change);
        assert_eq!((low, high), (change - 1, change));
        assert!(halvings == 9 || halvings == 10);
        let (low, high, _) = halve(0, 1000, true, &|t| t < change);
        assert_eq!((low, high), (change - 1, change));
    }
    assert_eq!(halve(5, 6, false, &|_| panic!("asked")), (5, 6, 0));
    assert_eq!(halve(0, 1 << 20, false, &|t| t > 77).2, 20);
    // The middle is floor((low+high)/2): 0 and 3 ask 1 first.
    let asked = Cell::new(0);
    halve(0, 3, false, &|t| asked.replace(t) != 0 || t == 1);
    assert_eq!(asked.get(), 1);
}

#[test]
fn the_most_intervals_fit_the_room() {
    for n in 1..=9 {
        let window = Window {
            t0: 10,
            t1: 10 + n,
            step: 1,
        };
        let mut intervals = vec![];
        let found = find(window, |t| t % 2 == 0, |f, l| intervals.push((f, l)));
        let most = (n + 1).div_ceil(2);
        assert_eq!(
            found,
            Found {
                intervals: most,
                asked: n + 1
            }
        );
        assert_eq!(
            intervals,
            (0..most)
                .map(|k| (10 + 2 * k, 10 + 2 * k))
                .collect::<Vec<_>>()
        );
    }
}

#[test]
fn always_and_never() {
    let window = Window {
        t0: 3,
        t1: 100,
        step: 10,
    };
    let mut intervals = vec![];
    let found = find(window, |_| true, |f, l| intervals.push((f, l)));
    assert_eq!(
        (found.intervals, found.asked, &intervals[..]),
        (1, 11, &[(3, 100)][..])
    );
    let found = find(window, |_| false, |_, _| panic!("no interval"));
    assert_eq!((found.intervals, found.asked), (0, 11));
}
