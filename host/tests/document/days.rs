//! Document 02, wish 3: the summary of a list.

use crate::common::lists::{self, SHORT_WINDOW};
use crate::helpers::*;
use host::record::{Interval, Job, Total};

#[test]
fn job_7_has_one_day() {
    let mut buffer = [KEPT; 40];
    let list = lists::own(&job7().encode());
    assert_eq!(
        host::days(&job7().encode(), &list, &mut buffer),
        listed(1, 0)
    );
    // 4,199,999 − 3,000,000 + 1 = 1,200,000 instants, hexadecimal 12 4F 80.
    let bytes = [
        0x00, 0x00, 0x00, 0x00, 0x01, 0x00, 0x00, 0x00, 0x80, 0x4F, 0x12, 0x00, 0x00, 0x00, 0x00,
        0x00,
    ];
    assert_eq!(buffer[..16], bytes);
    assert!(buffer[16..].iter().all(|&b| b == KEPT));
}

/// The days of the empty list's summary, in which there is nothing.
fn days_touched(t0: u64, t1: u64) -> Vec<u32> {
    let totals = totals_of(&job7_over(t0, t1), &[]);
    let nothing = |each: &Total| (each.intervals, each.instants) == (0, 0);
    assert!(totals.iter().all(nothing));
    totals.iter().map(|each| each.day).collect()
}

#[test]
fn one_record_for_each_day_that_the_window_touches() {
    assert_eq!(days_touched(0, 1), [0]);
    assert_eq!(days_touched(0, DAY - 1), [0]);
    assert_eq!(days_touched(0, DAY), [0, 1]);
    assert_eq!(days_touched(DAY - 1, DAY), [0, 1]);
    assert_eq!(days_touched(DAY, DAY + 1), [1]);
    assert_eq!(days_touched(DAY, 2 * DAY - 1), [1]);
    assert_eq!(days_touched(5 * DAY + 3, 8 * DAY + 2), [5, 6, 7, 8]);
    assert_eq!(days_touched(0, MONTH - 1), Vec::from_iter(0..31));
    assert_eq!(days_touched(0, MONTH), Vec::from_iter(0..32));
    assert_eq!(days_touched(MONTH - 1, MONTH), [30, 31]);
}

#[test]
fn every_instant_of_the_month() {
    let mut expected: Vec<Total> = (0..31).map(|day| total(day, 1, DAY)).collect();
    expected.push(total(31, 1, 1));
    assert_eq!(totals_of(&job7_over(0, MONTH), &[(0, MONTH)]), expected);
}

/// The totals of days 0 and 1, for a list in a window of both.
fn beside_midnight(list: &[(u64, u64)]) -> [(u32, u64); 2] {
    let totals = totals_of(&job7_over(DAY - 500, DAY + 500), list);
    assert_eq!((totals[0].day, totals[1].day), (0, 1));
    [0, 1].map(|k: usize| (totals[k].intervals, totals[k].instants))
}

#[test]
fn beside_a_midnight() {
    let (before, after) = (DAY - 1, DAY);
    assert_eq!(beside_midnight(&[(before, before)]), [(1, 1), (0, 0)]);
    assert_eq!(beside_midnight(&[(after, after)]), [(0, 0), (1, 1)]);
    assert_eq!(beside_midnight(&[(before, after)]), [(1, 1), (1, 1)]);
    assert_eq!(beside_midnight(&[(DAY - 10, before)]), [(1, 10), (0, 0)]);
    assert_eq!(beside_midnight(&[(after, DAY + 4)]), [(0, 0), (1, 5)]);
    assert_eq!(beside_midnight(&[(DAY - 10, DAY + 4)]), [(1, 10), (1, 5)]);
    let either_side = [(DAY - 10, before), (DAY + 1, DAY + 4)];
    assert_eq!(beside_midnight(&either_side), [(1, 10), (1, 4)]);
    let over_it = [
        (DAY - 500, DAY - 499),
        (DAY - 2, DAY + 1),
        (DAY + 3, DAY + 3),
    ];
    assert_eq!(beside_midnight(&over_it), [(2, 4), (2, 3)]);
    assert_eq!(
        beside_midnight(&[(DAY - 500, DAY + 500)]),
        [(1, 500), (1, 501)]
    );
}

#[test]
fn an_interval_over_several_days() {
    let job = job7_over(DAY - 2, 4 * DAY + 2);
    let expected = [
        total(0, 1, 1),
        total(1, 1, DAY),
        total(2, 1, DAY),
        total(3, 2, 1 + 7),
        total(4, 0, 0),
    ];
    let list = [(DAY - 1, 3 * DAY), (3 * DAY + 2, 3 * DAY + 8)];
    assert_eq!(totals_of(&job, &list), expected);
}

/// Each day from the epoch on has its own, wherever the window begins.
#[test]
fn a_day_in_each_day() {
    let list: Vec<(u64, u64)> = (3..29).map(|k| (DAY * k + 7, DAY * k + 7 + k)).collect();
    for (t0, from) in [(3 * DAY, 3), (3 * DAY - 1, 2), (0, 0)] {
        let totals = totals_of(&job7_over(t0, 29 * DAY - 1), &list);
        let expected = (from..29).map(|day| match day {
            0..3 => total(day, 0, 0),
            _ => total(day, 1, u64::from(day) + 1),
        });
        assert_eq!(totals, Vec::from_iter(expected));
    }
}

/// The definition, instant by instant: a day is there if the window has an instant of it; its
/// instants are the window's that some interval has, its intervals those that have one.
fn by_instants(job: &Job, list: &[(u64, u64)]) -> Vec<Total> {
    let mut totals: Vec<Total> = vec![];
    for t in job.t0..=job.t1 {
        let day = (t / DAY) as u32;
        if totals.last().is_none_or(|total| total.day != day) {
            totals.push(total(day, 0, 0));
        }
        let listed = list.iter().any(|&(first, last)| first <= t && t <= last);
        totals.last_mut().unwrap().instants += u64::from(listed);
    }
    for total in &mut totals {
        let in_day = |t: u64| (t / DAY) as u32 == total.day;
        let touching = |&&(first, last): &&(u64, u64)| (first..=last).any(in_day);
        total.intervals = list.iter().filter(touching).count() as u32;
    }
    totals
}

/// What 12 asks of a list's intervals, in numbers that cannot wrap.
fn is_good(job: &Job, list: &[(u64, u64)]) -> bool {
    let inside = |t: u64| job.t0 <= t && t <= job.t1;
    let fits = |&(first, last): &(u64, u64)| first <= last && inside(first) && inside(last);
    let apart = |pair: &[(u64, u64)]| u128::from(pair[0].1) + 2 <= u128::from(pair[1].0);
    list.iter().all(fits) && list.windows(2).all(apart)
}

#[test]
fn every_short_list() {
    let job = job7_over(SHORT_WINDOW.0, SHORT_WINDOW.1);
    let pairs = lists::about_the_short_window();
    let mut good = 0;
    let mut hold = |list: &[(u64, u64)]| {
        let (answer, totals) = summary_of(&job.encode(), &bytes_of(list), 40);
        if is_good(&job, list) {
            assert_eq!((answer, totals), (summed(2), by_instants(&job, list)));
            good += 1;
        } else {
            assert_eq!(answer.refusal, 12, "{list:?}");
        }
    };
    hold(&[]);
    for &one in &pairs {
        hold(&[one]);
        pairs.iter().for_each(|&two| hold(&[one, two]));
    }
    // Of the window's six instants: none; two ends of one interval, which may be the same, 6 · 7 / 2;
    // and of two intervals, with one instant at least between them, C(6 + 1, 4).
    assert_eq!(good, 1 + 21 + 35);
}

#[test]
fn good_lists_instant_by_instant() {
    let mut random = Random::of("good_lists_instant_by_instant");
    let (mut intervals, mut over_midnight) = (0, 0);
    for _ in 0..1_000 {
        let t0 = DAY * (1 + random.below(30)) - random.below(300);
        let job = job7_over(t0, t0 + 1 + random.below(900));
        let list = ends(&lists::good(&mut random, &job, 30));
        assert_eq!(totals_of(&job, &list), by_instants(&job, &list), "{list:?}");
        intervals += list.len();
        let both_sides = |&&(first, last): &&(u64, u64)| first / DAY != last / DAY;
        over_midnight += list.iter().filter(both_sides).count();
    }
    assert!(
        intervals > 2_000 && over_midnight > 150,
        "too tame: {intervals}, {over_midnight}"
    );
}

fn ends(list: &[Interval]) -> Vec<(u64, u64)> {
    list.iter().map(|each| (each.first, each.last)).collect()
}

#[test]
fn a_whole_day_instant_by_instant() {
    let job = job7_over(3 * DAY - 3, 4 * DAY + 2);
    let list = [
        (3 * DAY - 2, 3 * DAY + 1_000_000),
        (3 * DAY + 2_000_000, 4 * DAY),
        (4 * DAY + 2, 4 * DAY + 2),
    ];
    assert_eq!(totals_of(&job, &list), by_instants(&job, &list));
}

/// All instants are counted once, all intervals once and again for each midnight that they have.
fn check_sums(list: &[Interval], totals: &[Total]) {
    let instants: u64 = list.iter().map(|each| each.last - each.first + 1).sum();
    assert_eq!(totals.iter().map(|day| day.instants).sum::<u64>(), instants);
    let touched = |each: &Interval| each.last / DAY - each.first / DAY + 1;
    let touched: u64 = list.iter().map(touched).sum();
    let counted = totals.iter().map(|day| u64::from(day.intervals)).sum();
    assert_eq!(touched, counted);
    assert!(totals.iter().all(|day| day.instants <= DAY));
}

#[test]
fn the_program_s_own_lists_are_good() {
    let mut random = Random::of("the_program_s_own_lists_are_good");
    let (mut days, mut intervals) = (0, 0);
    for _ in 0..100 {
        let job = lists::job(&mut random);
        let (_, list) = run(&job);
        let totals = totals_of(&job, &ends(&list));
        check_sums(&list, &totals);
        days += totals.len();
        intervals += list.len();
    }
    assert!(
        days > 400 && intervals > 800,
        "too tame: {days}, {intervals}"
    );
}

#[test]
fn sums_of_good_lists() {
    let mut random = Random::of("sums_of_good_lists");
    for _ in 0..2_000 {
        let job = lists::job(&mut random);
        let list = lists::good(&mut random, &job, 20);
        check_sums(&list, &totals_of(&job, &ends(&list)));
    }
}

/// Who made a list is not looked at: only first and last count.
#[test]
fn lists_of_other_jobs() {
    let mut random = Random::of("lists_of_other_jobs");
    for _ in 0..300 {
        let job = lists::job(&mut random);
        let list = lists::good(&mut random, &job, 20);
        let (_, totals) = summary_of(&job.encode(), &lists::bytes(&list), 512);
        assert_eq!(totals, totals_of(&job, &ends(&list)));
    }
}

/// More intervals than a list of ours can have, and than two bytes can count.
#[test]
fn the_longest_list() {
    let job = job7_over(2 * DAY - 140_001, 2 * DAY + 3);
    let list = ends(&lists::every_second_instant(&job));
    // The window begins at an odd instant: 70,001 up to day 1's last, and day 2's instants 1 and 3.
    let expected = [total(1, 70_001, 70_001), total(2, 2, 2)];
    assert_eq!(totals_of(&job, &list), expected);
}
