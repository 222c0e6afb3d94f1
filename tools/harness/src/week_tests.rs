//! The direct computation on the cases of the request, and that a computation which keeps its total
//! gives the same.

use crate::cases::SEED;
use crate::prng::Prng;
use crate::refusal::{DAYS_NOT_RISING, NO_RUN};
use crate::week::{
    answer, damaged, days, direct, over_par, random, run_bytes, Answer, Played, RUN_BYTES,
    WEEK_DAYS,
};

const ROUNDS: usize = 20_000;

fn best(played: &[Played]) -> Answer {
    answer(&run_bytes(played))
}

#[test]
fn cases() {
    assert_eq!(best(&[]), Answer::NONE);
    assert_eq!(best(&days(0, 3, &[1; 7])), Answer::week(-14, 0));
    assert_eq!(best(&days(0, 3, &[1; 6])), Answer::NONE);
    let moves = [5, 5, 5, 5, 5, 5, 5, 1, 9];
    assert_eq!(best(&days(0, 0, &moves)), Answer::week(31, 1));
    let last = u32::MAX - 6;
    assert_eq!(
        best(&days(last, 65_535, &[0; 7])),
        Answer::week(-458_745, last)
    );
    assert_eq!(best(&days(3, 0, &[2; 9])), Answer::week(14, 3));
    let gap = [days(0, 0, &[1; 6]), days(7, 0, &[1; 6])].concat();
    assert_eq!(best(&gap), Answer::NONE);
}

#[test]
fn refusals() {
    for length in [1, 15, RUN_BYTES - 1, RUN_BYTES + 16] {
        assert_eq!(answer(&vec![0; length]), Answer::refused(NO_RUN));
    }
    assert_eq!(answer(&[0; RUN_BYTES]), Answer::refused(DAYS_NOT_RISING));
    let mut twice = run_bytes(&[days(5, 0, &[1]), days(5, 0, &[1])].concat());
    assert_eq!(answer(&twice), Answer::refused(DAYS_NOT_RISING));
    twice[31] = 1;
    assert_eq!(answer(&twice), Answer::refused(NO_RUN));
}

/// As the library does it: the new day is added and the old one removed.
fn sliding(played: &[Played]) -> Answer {
    let mut best: Option<(i64, u32)> = None;
    let (mut streak, mut total) = (0, 0);
    for (i, day) in played.iter().enumerate() {
        if i == 0 || u64::from(played[i - 1].day) + 1 != u64::from(day.day) {
            (streak, total) = (0, 0);
        }
        total += over_par(day);
        streak += 1;
        if streak > WEEK_DAYS {
            total -= over_par(&played[i - WEEK_DAYS]);
        }
        if streak >= WEEK_DAYS && best.map_or(true, |(lowest, _)| total < lowest) {
            best = Some((total, played[i + 1 - WEEK_DAYS].day));
        }
    }
    best.map_or(Answer::NONE, |(total, day)| Answer::week(total, day))
}

#[test]
fn sliding_is_direct() {
    let rng = &mut Prng::new(SEED + 112);
    let mut found = 0;
    for _ in 0..ROUNDS {
        let played = random(rng, 60);
        let wanted = direct(&played);
        assert_eq!(sliding(&played), wanted, "{played:?}");
        found += wanted.found;
    }
    assert!(found > ROUNDS as u64 / 4, "{found} weeks");
}

/// Damaged runs have every answer.
#[test]
fn damaged_runs() {
    let rng = &mut Prng::new(SEED + 113);
    let mut seen = [0; 4];
    for _ in 0..ROUNDS {
        let found = answer(&damaged(rng, 60));
        seen[match found.refusal {
            NO_RUN => 0,
            DAYS_NOT_RISING => 1,
            _ => 2 + found.found as usize,
        }] += 1;
    }
    assert!(seen.iter().all(|&count| count > ROUNDS / 50), "{seen:?}");
}
