//! Runs of played days, and their best week by a direct computation: every seven neighbouring records
//! are summed by themselves. The published Rust has nothing of the kind.

use crate::prng::Prng;
use crate::record::RECORD_BYTES;
use crate::refusal::{DAYS_NOT_RISING, NO_RUN};

pub const WEEK_DAYS: usize = 7;
pub const MOST_RECORDS: usize = 4_096;
pub const RUN_BYTES: usize = MOST_RECORDS * RECORD_BYTES;

/// A day, its par and the moves made.
#[derive(Clone, Copy, Debug)]
pub struct Played {
    pub day: u32,
    pub par: u16,
    pub moves: u16,
}

/// The bytes of a run.
pub fn run_bytes(played: &[Played]) -> Vec<u8> {
    let mut run = Vec::with_capacity(played.len() * RECORD_BYTES);
    for each in played {
        run.extend(each.day.to_le_bytes());
        run.extend(each.par.to_le_bytes());
        run.extend(each.moves.to_le_bytes());
        run.extend([0; 8]);
    }
    run
}

/// What a call gives: the refusal, found, total and day.
#[derive(Clone, Copy, Debug, PartialEq, Eq)]
pub struct Answer {
    pub refusal: u64,
    pub found: u64,
    pub total: i64,
    pub day: u64,
}

impl Answer {
    pub const NONE: Answer = Answer::refused(0);

    pub const fn refused(refusal: u64) -> Answer {
        Answer {
            refusal,
            found: 0,
            total: 0,
            day: 0,
        }
    }

    pub fn week(total: i64, day: u32) -> Answer {
        Answer {
            refusal: 0,
            found: 1,
            total,
            day: u64::from(day),
        }
    }
}

/// The answer for any bytes.
pub fn answer(run: &[u8]) -> Answer {
    let whole = run.len() <= RUN_BYTES && run.len() % RECORD_BYTES == 0;
    let records: Vec<&[u8]> = run.chunks(RECORD_BYTES).collect();
    if !whole || records.iter().any(|record| record[8..] != [0; 8]) {
        return Answer::refused(NO_RUN);
    }
    let played: Vec<Played> = records.into_iter().map(read).collect();
    if played.windows(2).any(|two| two[1].day <= two[0].day) {
        return Answer::refused(DAYS_NOT_RISING);
    }
    direct(&played)
}

fn read(record: &[u8]) -> Played {
    Played {
        day: u32::from_le_bytes([record[0], record[1], record[2], record[3]]),
        par: u16::from_le_bytes([record[4], record[5]]),
        moves: u16::from_le_bytes([record[6], record[7]]),
    }
}

/// The lowest of the totals, and among those with it the lowest first day.
pub fn direct(played: &[Played]) -> Answer {
    let total = |week: &[Played]| -> i64 { week.iter().map(over_par).sum() };
    played
        .windows(WEEK_DAYS)
        .filter(|week| {
            let first = u64::from(week[0].day);
            week.iter()
                .zip(first..)
                .all(|(p, day)| u64::from(p.day) == day)
        })
        .map(|week| (total(week), week[0].day))
        .min()
        .map_or(Answer::NONE, |(total, day)| Answer::week(total, day))
}

pub fn over_par(played: &Played) -> i64 {
    i64::from(played.moves) - i64::from(played.par)
}

/// Days from `first` on, all of one par.
pub fn days(first: u32, par: u16, moves: &[u16]) -> Vec<Played> {
    (first..=u32::MAX)
        .zip(moves)
        .map(|(day, &moves)| Played { day, par, moves })
        .collect()
}

/// Days with few gaps or none, so that there are weeks, and often totals that are the same.
pub fn random(rng: &mut Prng, most: usize) -> Vec<Played> {
    let mut day = rng.pick(&[0, 1, 1_000, u64::from(u32::MAX) - 40]);
    let gap = rng.pick(&[3, 8, 20, 100, usize::MAX]);
    let range = rng.pick(&[2, 4, 65_536]);
    let mut played = Vec::new();
    for _ in 0..rng.below(most + 1) {
        let Ok(number) = u32::try_from(day) else {
            break;
        };
        played.push(Played {
            day: number,
            par: rng.below(range) as u16,
            moves: rng.below(range) as u16,
        });
        day += 1 + if rng.one_in(gap) { rng.word() % 8 } else { 0 };
    }
    played
}

/// A run that may be damaged: a bit changed, records out of their order, bytes more or fewer.
pub fn damaged(rng: &mut Prng, most: usize) -> Vec<u8> {
    let mut run = run_bytes(&random(rng, most));
    if !run.is_empty() {
        let place = rng.below(run.len());
        run[place] ^= 1 << rng.below(8);
    }
    match rng.below(4) {
        0 => run.truncate(rng.below(run.len() + 1)),
        1 => run.extend((0..rng.below(33)).map(|_| 0)),
        _ => (),
    }
    run
}
