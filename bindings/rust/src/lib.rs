//! Mixed Boolean-arithmetic expressions as short sums of weighted bitwise atoms: safe functions over
//! the static library `libhogzelt.a`, whose functions are proved to meet their contracts.
//!
//! ```
//! use hogzelt::{run_passes, Expr, Pass};
//!
//! // x ^ 15 at 8 bits is 15 + 1*x - 2*(x & 15)
//! let x = Expr::variable(8, 0);
//! let expr = x.clone() ^ Expr::constant(8, 15);
//! let sheet = run_passes(&expr, &[Pass::Flatten, Pass::Coalesce, Pass::Recover, Pass::Refine])?;
//! assert_eq!(sheet.constant(), 15);
//! let coefficients: Vec<u64> = sheet.terms().iter().map(|term| term.coefficient).collect();
//! assert_eq!(coefficients, [1, 254]);
//! assert_eq!(sheet.value(&[5])?, expr.value(&[5])?);
//! # Ok::<(), hogzelt::Refusal>(())
//! ```
//!
//! Input is bytes of any length and any content: what the library does not take, it refuses. A
//! function whose name ends in `_into` writes to slices of the caller, all of which it overwrites;
//! the others allocate. A call needs up to 437 KiB of stack, which is measured and not proved; the
//! main thread and those that Rust starts have 2 MiB or more by default.

mod columns;
mod expr;
mod judge;
pub mod raw;
mod refusal;
mod sheet;
mod week;

pub use columns::{Class, Columns, OPAQUE};
pub use expr::Expr;
pub use judge::{judge, Assignment, Verdict};
pub use refusal::Refusal;
pub use sheet::{Sheet, Term};
pub use week::{best_week, run_bytes, Played, Week};

/// The version: major * 10000 + minor * 100 + patch.
pub const VERSION: u64 = 10_600;
/// The bytes of a record.
pub const RECORD_BYTES: usize = 16;
/// The most bytes of an expression.
pub const EXPR_BYTES: usize = 16_384;
/// The length of a result slice that takes a form.
pub const FORM_BYTES: usize = 57_360;
/// The length in words of a result slice that takes columns.
pub const COLUMN_WORDS: usize = 16_448;
/// The most bytes of a run.
pub const RUN_BYTES: usize = 65_536;

/// A pass over a form, by its number in a list of calls.
#[derive(Clone, Copy, Debug, PartialEq, Eq, Hash)]
pub enum Pass {
    /// Masks are cut, terms dropped, joined and collapsed.
    Refine = 1,
    /// Terms under masks that complement each other become one.
    Recover = 2,
    /// The bits of a variable that have one coefficient become one term.
    Coalesce = 3,
    /// An atom of one variable becomes the bits that it passes and inverts.
    Flatten = 4,
    /// Atoms without a term are dropped.
    Compact = 5,
}

impl Pass {
    /// Every pass, by rising number.
    pub const ALL: [Pass; 5] = [
        Pass::Refine,
        Pass::Recover,
        Pass::Coalesce,
        Pass::Flatten,
        Pass::Compact,
    ];
}

/// The rules by which an expression is normalised.
#[derive(Clone, Copy, Debug, PartialEq, Eq, Hash)]
pub enum Rules {
    /// Those of [`normalize`].
    One = 1,
    /// Those of [`normalize`] for the expression rewritten in two steps, which keep its value. First
    /// each part without a variable below an And, Or, Xor or Not, a literal included, becomes one
    /// literal, cut to w bits. Then each Not with an Add, Mul or Neg below it becomes -e - 1, where
    /// e is its operand.
    Two = 2,
}

impl Rules {
    /// Both, by rising number.
    pub const ALL: [Rules; 2] = [Rules::One, Rules::Two];
}

/// A call in a list: a pass, and the length of the result slice that is lent to it. With another
/// length than [`FORM_BYTES`] it is refused, which leaves the form as it was.
#[derive(Clone, Copy, Debug, PartialEq, Eq, Hash)]
pub struct Call {
    pub pass: Pass,
    pub length: usize,
}

/// What stands in a result slice.
#[derive(Clone, Copy, Debug, PartialEq, Eq)]
pub struct Written {
    /// The bytes of the form; behind them the slice is zero.
    pub used: usize,
    /// The count of terms, the par.
    pub terms: usize,
    /// Whether flattening found an atom to flatten; false of the other functions.
    pub flattened: bool,
}

/// The value of an expression under an assignment: variable i has word i, and variables beyond its end
/// are 0. Of more than 65,536 words the others are not read.
///
/// ```
/// use hogzelt::{expr_value, Refusal};
///
/// assert_eq!(expr_value(&[0; 15], &[]), Err(Refusal::InputLength));
/// ```
pub fn expr_value(expr: impl AsRef<[u8]>, vars: &[u64]) -> Result<u64, Refusal> {
    value_by(raw::hogzelt_expr_value, expr.as_ref(), vars)
}

/// The value of a form under an assignment, as in [`expr_value`].
pub fn sheet_value(sheet: impl AsRef<[u8]>, vars: &[u64]) -> Result<u64, Refusal> {
    value_by(raw::hogzelt_semilinear_value, sheet.as_ref(), vars)
}

type Valuer = unsafe extern "C" fn(*const u8, usize, *const u64, usize, *mut u64) -> u64;

fn value_by(valuer: Valuer, bytes: &[u8], vars: &[u64]) -> Result<u64, Refusal> {
    let mut value = 0;
    // SAFETY: both slices are valid for their lengths, and `value` lies in neither.
    let refusal = unsafe {
        valuer(
            bytes.as_ptr(),
            bytes.len(),
            vars.as_ptr(),
            vars.len(),
            &mut value,
        )
    };
    Refusal::check(refusal).map(|()| value)
}

/// The form of an expression by rules 1, allocated.
///
/// ```
/// use hogzelt::{normalize, Expr, Refusal};
///
/// let (a, b) = (Expr::variable(8, 0), Expr::variable(8, 1));
/// assert_eq!(normalize(&(a * b)), Err(Refusal::Nonlinear));
/// ```
pub fn normalize(expr: impl AsRef<[u8]>) -> Result<Sheet, Refusal> {
    allocated(|out| normalize_into(expr, out))
}

/// The form of an expression by rules 1, in a slice of [`FORM_BYTES`].
///
/// ```
/// use hogzelt::{normalize_into, Expr, FORM_BYTES};
///
/// let mut out = vec![0; FORM_BYTES];
/// let written = normalize_into(Expr::variable(8, 0), &mut out)?;
/// assert_eq!((written.used, written.terms), (64, 1));
/// # Ok::<(), hogzelt::Refusal>(())
/// ```
pub fn normalize_into(expr: impl AsRef<[u8]>, out: &mut [u8]) -> Result<Written, Refusal> {
    write_by(raw::hogzelt_normalize_to_semilinear, expr.as_ref(), out)
}

/// The form of an expression by the rules that are named, allocated. [`Refusal::Nonlinear`] and
/// [`Refusal::TableFull`] are about the expression as the rules rewrite it.
///
/// ```
/// use hogzelt::{normalize_by_rules, Expr, Refusal, Rules};
///
/// // ~(a + b) at 8 bits is 255 + 255*a + 255*b
/// let sum = Expr::variable(8, 0) + Expr::variable(8, 1);
/// assert_eq!(normalize_by_rules(Rules::One, !sum.clone()), Err(Refusal::Nonlinear));
/// let sheet = normalize_by_rules(Rules::Two, !sum)?;
/// assert_eq!((sheet.constant(), sheet.par()), (255, 2));
/// assert_eq!(sheet.value(&[3, 4])?, 248);
/// # Ok::<(), hogzelt::Refusal>(())
/// ```
///
/// Passes under rules 2 are those of the sheet; [`run_passes`] keeps to rules 1:
///
/// ```
/// use hogzelt::{normalize_by_rules, Expr, Pass, Rules};
///
/// // at 8 bits (a & 271) + (a & -16) is (a & 15) + (a & 240)
/// let (a, wide) = (Expr::variable(8, 0), Expr::constant(8, 271));
/// let sum = (a.clone() & wide) + (a & -Expr::constant(8, 16));
/// let sheet = normalize_by_rules(Rules::Two, sum)?.pass(Pass::Refine)?;
/// assert_eq!(sheet.terms()[0].atom, Expr::variable(8, 0).as_bytes());
/// # Ok::<(), hogzelt::Refusal>(())
/// ```
pub fn normalize_by_rules(rules: Rules, expr: impl AsRef<[u8]>) -> Result<Sheet, Refusal> {
    allocated(|out| normalize_by_rules_into(rules, expr, out))
}

/// The form of an expression by the rules that are named, in a slice of [`FORM_BYTES`]. Rules other
/// than 1 and 2 can be named to [`raw::hogzelt_normalize_by_rules`] alone, which refuses them.
pub fn normalize_by_rules_into(
    rules: Rules,
    expr: impl AsRef<[u8]>,
    out: &mut [u8],
) -> Result<Written, Refusal> {
    let expr = expr.as_ref();
    let (mut used, mut terms) = (0, 0);
    // SAFETY: both slices are valid for their lengths; what is written lies in neither and apart.
    let refusal = unsafe {
        raw::hogzelt_normalize_by_rules(
            rules as u64,
            expr.as_ptr(),
            expr.len(),
            out.as_mut_ptr(),
            out.len(),
            &mut used,
            &mut terms,
        )
    };
    written(refusal, used, terms, 0)
}

/// A pass over a form, allocated.
pub fn run_pass(pass: Pass, sheet: impl AsRef<[u8]>) -> Result<Sheet, Refusal> {
    allocated(|out| run_pass_into(pass, sheet, out))
}

/// A pass over a form, in a slice of [`FORM_BYTES`].
pub fn run_pass_into(
    pass: Pass,
    sheet: impl AsRef<[u8]>,
    out: &mut [u8],
) -> Result<Written, Refusal> {
    let writer: raw::Writer = match pass {
        Pass::Refine => raw::hogzelt_refine_terms,
        Pass::Recover => raw::hogzelt_recover_structure,
        Pass::Coalesce => raw::hogzelt_coalesce_terms,
        Pass::Flatten => return flatten_into(sheet.as_ref(), out),
        Pass::Compact => raw::hogzelt_compact_atom_table,
    };
    write_by(writer, sheet.as_ref(), out)
}

fn flatten_into(sheet: &[u8], out: &mut [u8]) -> Result<Written, Refusal> {
    let (mut used, mut terms, mut flattened) = (0, 0, 0);
    // SAFETY: both slices are valid for their lengths; what is written lies in neither and apart.
    let refusal = unsafe {
        raw::hogzelt_flatten_complex_atoms(
            sheet.as_ptr(),
            sheet.len(),
            out.as_mut_ptr(),
            out.len(),
            &mut used,
            &mut terms,
            &mut flattened,
        )
    };
    written(refusal, used, terms, flattened)
}

/// The form after a list of passes, run from an expression by rules 1, allocated. A call that is
/// refused leaves the form as it was.
pub fn run_passes(expr: impl AsRef<[u8]>, passes: &[Pass]) -> Result<Sheet, Refusal> {
    let calls: Vec<Call> = passes
        .iter()
        .map(|&pass| Call {
            pass,
            length: FORM_BYTES,
        })
        .collect();
    let mut spare = vec![0; FORM_BYTES];
    allocated(|out| run_calls_into(expr, &calls, out, &mut spare))
}

/// The form after a list of calls, in `sheet`, a slice of [`FORM_BYTES`]; `spare` must be as long as
/// the longest of the calls, and is left zero.
pub fn run_calls_into(
    expr: impl AsRef<[u8]>,
    calls: &[Call],
    sheet: &mut [u8],
    spare: &mut [u8],
) -> Result<Written, Refusal> {
    let expr = expr.as_ref();
    let words: Vec<u64> = calls
        .iter()
        .flat_map(|call| [call.pass as u64, call.length as u64])
        .collect();
    let (mut used, mut terms) = (0, 0);
    // SAFETY: all slices are valid for their lengths; what is written lies in none and apart.
    let refusal = unsafe {
        raw::hogzelt_run_passes(
            expr.as_ptr(),
            expr.len(),
            words.as_ptr(),
            words.len(),
            sheet.as_mut_ptr(),
            sheet.len(),
            spare.as_mut_ptr(),
            spare.len(),
            &mut used,
            &mut terms,
        )
    };
    written(refusal, used, terms, 0)
}

/// The classes of places of a form, allocated.
pub fn columns(sheet: impl AsRef<[u8]>) -> Result<Columns, Refusal> {
    let mut out = vec![0; COLUMN_WORDS];
    let classes = columns_into(&sheet, &mut out)?;
    Ok(Columns::new(out, classes, sheet.as_ref()))
}

/// The classes of places of a form, in a slice of [`COLUMN_WORDS`]; gives their count.
pub fn columns_into(sheet: impl AsRef<[u8]>, out: &mut [u64]) -> Result<usize, Refusal> {
    let sheet = sheet.as_ref();
    let mut classes = 0;
    // SAFETY: both slices are valid for their lengths; what is written lies in neither and apart.
    let refusal = unsafe {
        raw::hogzelt_compute_partitions(
            sheet.as_ptr(),
            sheet.len(),
            out.as_mut_ptr(),
            out.len(),
            &mut classes,
        )
    };
    Refusal::check(refusal).map(|()| classes as usize)
}

/// The bits of a mask that can reach `coeff * (mask & x)` modulo 2^w.
///
/// ```
/// assert_eq!(hogzelt::reduce_mask(16, 255, 8), 15);
/// ```
pub fn reduce_mask(coeff: u64, mask: u64, w: u32) -> u64 {
    // SAFETY: the function takes numbers only.
    unsafe { raw::hogzelt_reduce_mask(coeff, mask, w) }
}

/// Whether one mask may stand for another beside a coefficient.
pub fn can_change_mask_to(coeff: u64, old: u64, new: u64, w: u32) -> bool {
    // SAFETY: the function takes numbers only.
    unsafe { raw::hogzelt_can_change_mask_to(coeff, old, new, w) }
}

/// Whether one coefficient may stand for another beside a mask.
pub fn can_change_coefficient_to(old: u64, new: u64, mask: u64, w: u32) -> bool {
    // SAFETY: the function takes numbers only.
    unsafe { raw::hogzelt_can_change_coefficient_to(old, new, mask, w) }
}

fn write_by(writer: raw::Writer, input: &[u8], out: &mut [u8]) -> Result<Written, Refusal> {
    let (mut used, mut terms) = (0, 0);
    // SAFETY: both slices are valid for their lengths; what is written lies in neither and apart.
    let refusal = unsafe {
        writer(
            input.as_ptr(),
            input.len(),
            out.as_mut_ptr(),
            out.len(),
            &mut used,
            &mut terms,
        )
    };
    written(refusal, used, terms, 0)
}

fn written(refusal: u64, used: u64, terms: u64, flattened: u64) -> Result<Written, Refusal> {
    Refusal::check(refusal).map(|()| Written {
        used: used as usize,
        terms: terms as usize,
        flattened: flattened != 0,
    })
}

/// A form in a slice of its own.
fn allocated(write: impl FnOnce(&mut [u8]) -> Result<Written, Refusal>) -> Result<Sheet, Refusal> {
    let mut out = vec![0; FORM_BYTES];
    let Written { used, terms, .. } = write(&mut out)?;
    Ok(Sheet::new(out, used, terms))
}
