use crate::{columns, run_pass, sheet_value, Columns, Pass, Refusal, RECORD_BYTES};

pub(crate) const HEAD: u8 = 33;

/// A term of a sheet: a number times an atom.
#[derive(Clone, Copy, Debug, PartialEq, Eq)]
pub struct Term<'a> {
    /// 1 to 2^w - 1.
    pub coefficient: u64,
    /// The records of the atom's tree.
    pub atom: &'a [u8],
}

/// A semilinear form that the library wrote (document 01: sheet), allocated.
///
/// ```
/// use hogzelt::{normalize, Expr, Pass};
///
/// let a = Expr::variable(8, 0);
/// let sum = (a.clone() & Expr::constant(8, 15)) + (a & Expr::constant(8, 240));
/// let sheet = normalize(&sum)?;
/// assert_eq!((sheet.constant(), sheet.par()), (0, 2));
/// let refined = sheet.pass(Pass::Refine)?;
/// assert_eq!(refined.par(), 1);
/// assert_eq!(refined.terms()[0].atom, Expr::variable(8, 0).as_bytes());
/// assert_eq!(refined.value(&[200])?, 200);
/// # Ok::<(), hogzelt::Refusal>(())
/// ```
#[derive(Clone, Debug, PartialEq, Eq, Hash)]
pub struct Sheet {
    bytes: Vec<u8>,
    par: usize,
}

impl Sheet {
    /// The used part of a result slice, cut off from it.
    pub(crate) fn new(mut bytes: Vec<u8>, used: usize, par: usize) -> Self {
        bytes.truncate(used);
        bytes.shrink_to_fit();
        Self { bytes, par }
    }

    /// The bytes, up to the used length.
    pub fn as_bytes(&self) -> &[u8] {
        &self.bytes
    }

    /// The count of terms.
    pub fn par(&self) -> usize {
        self.par
    }

    /// The width, 1 to 64.
    pub fn width(&self) -> u8 {
        self.bytes[4]
    }

    /// The constant, below 2^w.
    pub fn constant(&self) -> u64 {
        word(&self.bytes[self.bytes.len() - RECORD_BYTES..])
    }

    /// The trees of the atoms, used or not, by number.
    pub fn atoms(&self) -> Vec<&[u8]> {
        let mut atoms = Vec::new();
        let mut rest = &self.bytes[..];
        while rest[0] == HEAD {
            let tree = RECORD_BYTES * number(rest);
            atoms.push(&rest[RECORD_BYTES..RECORD_BYTES + tree]);
            rest = &rest[RECORD_BYTES + tree..];
        }
        atoms
    }

    /// The terms, by rising atom number.
    pub fn terms(&self) -> Vec<Term<'_>> {
        let atoms = self.atoms();
        let first = self.bytes.len() - RECORD_BYTES * (self.par + 1);
        (0..self.par)
            .map(|i| {
                let record = &self.bytes[first + RECORD_BYTES * i..];
                Term {
                    coefficient: word(record),
                    atom: atoms[number(record)],
                }
            })
            .collect()
    }

    /// The value under an assignment: [`sheet_value`].
    pub fn value(&self, vars: &[u64]) -> Result<u64, Refusal> {
        sheet_value(&self.bytes, vars)
    }

    /// The sheet after a pass: [`run_pass`].
    pub fn pass(&self, pass: Pass) -> Result<Sheet, Refusal> {
        run_pass(pass, &self.bytes)
    }

    /// The classes of places: [`columns`].
    pub fn columns(&self) -> Result<Columns, Refusal> {
        columns(&self.bytes)
    }
}

impl AsRef<[u8]> for Sheet {
    fn as_ref(&self) -> &[u8] {
        &self.bytes
    }
}

/// Bytes 2 and 3 of a record: the size of a tree, or an atom's number.
pub(crate) fn number(record: &[u8]) -> usize {
    usize::from(u16::from_le_bytes([record[2], record[3]]))
}

/// Bytes 8 to 15 of a record.
fn word(record: &[u8]) -> u64 {
    u64::from_le_bytes(record[8..16].try_into().expect("eight bytes"))
}
