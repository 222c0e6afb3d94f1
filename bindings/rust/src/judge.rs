use crate::expr::VARIABLE;
use crate::{raw, Refusal, RECORD_BYTES};

/// What the judge says of two expressions.
#[derive(Clone, Debug, PartialEq, Eq, Hash)]
pub enum Verdict {
    /// They have the same value under every assignment.
    Equal,
    /// They do not: the first assignment that tells them apart, by place and then by index.
    Unlike(Assignment),
}

impl Verdict {
    /// Whether the two have the same value under every assignment.
    pub fn is_equal(&self) -> bool {
        *self == Verdict::Equal
    }
}

/// An assignment that has bits at one place alone: the j-th smallest variable, j from 0, has bit j
/// of the index there.
#[derive(Clone, Debug, PartialEq, Eq, Hash)]
pub struct Assignment {
    pub place: u32,
    pub index: u32,
    /// The variables of the two expressions as they are given, by rising number, with their words.
    pub variables: Vec<(u16, u64)>,
}

impl Assignment {
    /// One word for each variable up to the last one, as [`crate::expr_value`] takes them.
    pub fn words(&self) -> Vec<u64> {
        let count = self
            .variables
            .last()
            .map_or(0, |last| 1 + usize::from(last.0));
        let mut words = vec![0; count];
        for &(number, word) in &self.variables {
            words[usize::from(number)] = word;
        }
        words
    }
}

/// Whether two expressions have the same value under every assignment. Both are normalised by rules
/// 1, and what is refused there is refused here, the left's refusal first; after these
/// [`Refusal::WidthsDiffer`], [`Refusal::TooManyVariables`] and [`Refusal::ShiftedVariable`].
/// Variables and shifts count as they are given, also under a factor of 0.
///
/// ```
/// use hogzelt::{judge, Expr, Verdict};
///
/// let (a, b) = (Expr::variable(8, 0), Expr::variable(8, 1));
/// let sum = a.clone() + b.clone();
/// let twice = Expr::constant(8, 2) * (a.clone() & b.clone());
/// assert_eq!(judge(&sum, (a.clone() ^ b.clone()) + twice)?, Verdict::Equal);
///
/// // a | b has no carry: at a = 1 and b = 1 it is 1
/// let Verdict::Unlike(found) = judge(a.clone() | b.clone(), &sum)? else { panic!("unlike") };
/// assert_eq!((found.place, found.index), (0, 3));
/// assert_eq!(found.variables, [(0, 1), (1, 1)]);
/// assert_eq!(((a | b).value(&found.words())?, sum.value(&found.words())?), (1, 2));
/// # Ok::<(), hogzelt::Refusal>(())
/// ```
pub fn judge(left: impl AsRef<[u8]>, right: impl AsRef<[u8]>) -> Result<Verdict, Refusal> {
    let (left, right) = (left.as_ref(), right.as_ref());
    let (mut equal, mut place, mut index) = (0, 0, 0);
    // SAFETY: both slices are valid for their lengths; the three numbers lie in neither and apart.
    let refusal = unsafe {
        raw::hogzelt_judge(
            left.as_ptr(),
            left.len(),
            right.as_ptr(),
            right.len(),
            &mut equal,
            &mut place,
            &mut index,
        )
    };
    Refusal::check(refusal)?;
    Ok(match equal {
        1 => Verdict::Equal,
        _ => Verdict::Unlike(assignment(left, right, place, index)),
    })
}

/// The assignment of a place, which is below 64, and of an index, which is below 32.
fn assignment(left: &[u8], right: &[u8], place: u64, index: u64) -> Assignment {
    let mut numbers: Vec<u16> = variables(left).chain(variables(right)).collect();
    numbers.sort_unstable();
    numbers.dedup();
    Assignment {
        place: place as u32,
        index: index as u32,
        variables: (0..)
            .zip(numbers)
            .map(|(j, v)| (v, (index >> j & 1) << place))
            .collect(),
    }
}

/// The numbers of the variables in the records of an accepted expression.
fn variables(expr: &[u8]) -> impl Iterator<Item = u16> + '_ {
    expr.chunks_exact(RECORD_BYTES)
        .filter(|record| record[0] == VARIABLE)
        .map(|record| u16::from_le_bytes([record[1], record[5]]))
}
