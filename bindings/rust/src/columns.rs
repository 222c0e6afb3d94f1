use crate::sheet::{number, HEAD};
use crate::RECORD_BYTES;

/// The word of an atom that has no table, with its number in the low bits: it has more than five
/// variables, or a shift by another count than 0.
pub const OPAQUE: u64 = 0xDEAD_0000_0000_0000;

/// The places of a sheet in classes (document 01: hint columns), allocated.
///
/// ```
/// use hogzelt::{normalize, Expr};
///
/// let sheet = normalize(&(Expr::variable(8, 0) & Expr::constant(8, 15)))?;
/// let columns = sheet.columns()?;
/// let classes: Vec<_> = columns.classes().map(|c| (c.mask, c.tables[0])).collect();
/// assert_eq!(classes, [(0x0f, 2), (0xf0, 0)]);
/// # Ok::<(), hogzelt::Refusal>(())
/// ```
#[derive(Clone, Debug, PartialEq, Eq, Hash)]
pub struct Columns {
    words: Vec<u64>,
    each: usize,
}

/// The places at which all atoms have the same tables.
#[derive(Clone, Copy, Debug, PartialEq, Eq)]
pub struct Class<'a> {
    /// The places.
    pub mask: u64,
    /// A word for each atom: bit i is the atom's bit when its j-th smallest variable has bit j of i,
    /// unless the word is [`OPAQUE`] with the atom's number.
    pub tables: &'a [u64],
}

impl Columns {
    /// The classes in a result slice, of a sheet that was accepted.
    pub(crate) fn new(mut words: Vec<u64>, classes: usize, sheet: &[u8]) -> Self {
        let each = 1 + atom_count(sheet);
        words.truncate(each * classes);
        words.shrink_to_fit();
        Self { words, each }
    }

    /// The classes by rising lowest place.
    pub fn classes(&self) -> impl ExactSizeIterator<Item = Class<'_>> {
        self.words.chunks_exact(self.each).map(|words| Class {
            mask: words[0],
            tables: &words[1..],
        })
    }

    /// The words as the library writes them.
    pub fn as_words(&self) -> &[u64] {
        &self.words
    }
}

/// The count of atoms at the front of a sheet.
fn atom_count(sheet: &[u8]) -> usize {
    let (mut count, mut at) = (0, 0);
    while sheet[at] == HEAD {
        at += RECORD_BYTES * (1 + number(&sheet[at..]));
        count += 1;
    }
    count
}
