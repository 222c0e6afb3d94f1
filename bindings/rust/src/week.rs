use crate::{raw, Refusal, RECORD_BYTES};

/// A day of a run, its par and the moves that were made.
#[derive(Clone, Copy, Debug, PartialEq, Eq, Hash)]
pub struct Played {
    pub day: u32,
    pub par: u16,
    pub moves: u16,
}

impl Played {
    /// Its record.
    pub fn to_bytes(self) -> [u8; RECORD_BYTES] {
        let mut record = [0; RECORD_BYTES];
        record[..4].copy_from_slice(&self.day.to_le_bytes());
        record[4..6].copy_from_slice(&self.par.to_le_bytes());
        record[6..8].copy_from_slice(&self.moves.to_le_bytes());
        record
    }
}

/// Seven consecutive days.
#[derive(Clone, Copy, Debug, PartialEq, Eq, Hash)]
pub struct Week {
    /// The total of moves minus par.
    pub total: i64,
    /// The first day.
    pub day: u32,
}

/// The bytes of a run.
pub fn run_bytes(played: impl IntoIterator<Item = Played>) -> Vec<u8> {
    played.into_iter().flat_map(Played::to_bytes).collect()
}

/// The seven neighbouring records of a run with consecutive days that have the lowest total of moves
/// minus par, the earliest where some have the same; none where there are no such seven.
///
/// ```
/// use hogzelt::{best_week, run_bytes, Played, Week};
///
/// let days = (0..7).map(|day| Played { day, par: 3, moves: 1 });
/// assert_eq!(best_week(run_bytes(days))?, Some(Week { total: -14, day: 0 }));
/// assert_eq!(best_week([])?, None);
/// # Ok::<(), hogzelt::Refusal>(())
/// ```
pub fn best_week(run: impl AsRef<[u8]>) -> Result<Option<Week>, Refusal> {
    let run = run.as_ref();
    let (mut found, mut total, mut day) = (0, 0, 0);
    // SAFETY: the slice is valid for its length, and the three numbers lie apart from it.
    let refusal = unsafe {
        raw::hogzelt_best_week(run.as_ptr(), run.len(), &mut found, &mut total, &mut day)
    };
    Refusal::check(refusal)?;
    // a record has four bytes for its day
    Ok((found == 1).then_some(Week {
        total,
        day: day as u32,
    }))
}
