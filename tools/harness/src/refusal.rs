//! Document 01's refusals by number ("Refusals") and those of document 02, and which of them each
//! function gives. No function gives 7, which document 01 has; its number stays unused.

pub const INPUT_LENGTH: u64 = 1;
pub const RESULT_LENGTH: u64 = 2;
pub const MALFORMED: u64 = 3;
pub const WIDTH: u64 = 4;
pub const CAST: u64 = 5;
pub const SHIFT_COUNT: u64 = 6;
pub const NONLINEAR: u64 = 8;
pub const TABLE_FULL: u64 = 9;
pub const NO_FORM: u64 = 10;
/// Of two sides that are judged: their widths, their variables together, a shift over one.
pub const WIDTHS_DIFFER: u64 = 11;
pub const TOO_MANY_VARIABLES: u64 = 12;
pub const SHIFTED_VARIABLE: u64 = 13;
/// Rules other than those of request #109.
pub const RULES: u64 = 18;
/// A run of days: its length or a byte that must be 0, and the order of the days.
#[cfg_attr(not(any(feature = "library", test)), allow(dead_code))]
pub const NO_RUN: u64 = 20;
#[cfg_attr(not(any(feature = "library", test)), allow(dead_code))]
pub const DAYS_NOT_RISING: u64 = 21;
/// A list of calls that is none.
pub const NO_LIST: u64 = 32;

/// The names of 0, which is no refusal, and of each refusal up to 13, 7 among them.
const NAMES: [&str; 14] = [
    "accepted",
    "refusal 1",
    "refusal 2",
    "refusal 3",
    "refusal 4",
    "refusal 5",
    "refusal 6",
    "refusal 7",
    "refusal 8",
    "refusal 9",
    "refusal 10",
    "refusal 11",
    "refusal 12",
    "refusal 13",
];

/// How many numbers there are up to 13, 0 among them.
#[cfg_attr(not(feature = "library"), allow(dead_code))]
pub const NUMBERS: usize = NAMES.len();

pub const OF_EXPR_VALUE: &[u64] = &[INPUT_LENGTH, MALFORMED, WIDTH, CAST, SHIFT_COUNT];
pub const OF_NORMALIZE: &[u64] = &[
    INPUT_LENGTH,
    RESULT_LENGTH,
    MALFORMED,
    WIDTH,
    CAST,
    SHIFT_COUNT,
    NONLINEAR,
    TABLE_FULL,
];
/// In the order in which they are looked for.
pub const OF_RULES: &[u64] = &[
    RULES,
    INPUT_LENGTH,
    RESULT_LENGTH,
    MALFORMED,
    WIDTH,
    CAST,
    SHIFT_COUNT,
    NONLINEAR,
    TABLE_FULL,
];
pub const OF_FORM_VALUE: &[u64] = &[INPUT_LENGTH, NO_FORM];
pub const OF_COMPACT: &[u64] = &[INPUT_LENGTH, RESULT_LENGTH, NO_FORM];
pub const OF_PASSES: &[u64] = &[INPUT_LENGTH, RESULT_LENGTH, TABLE_FULL, NO_FORM];
pub const OF_COLUMNS: &[u64] = OF_COMPACT;
/// In the order in which they are looked for.
pub const OF_LISTS: &[u64] = &[
    INPUT_LENGTH,
    RESULT_LENGTH,
    NO_LIST,
    MALFORMED,
    WIDTH,
    CAST,
    SHIFT_COUNT,
    NONLINEAR,
    TABLE_FULL,
];
/// In the order in which they are looked for, up to 9 in the left and then in the right.
pub const OF_JUDGE: &[u64] = &[
    INPUT_LENGTH,
    MALFORMED,
    WIDTH,
    CAST,
    SHIFT_COUNT,
    NONLINEAR,
    TABLE_FULL,
    WIDTHS_DIFFER,
    TOO_MANY_VARIABLES,
    SHIFTED_VARIABLE,
];
/// In the order in which they are looked for, 1 and 10 in the left and then in the right.
pub const OF_JUDGE_FORMS: &[u64] = &[
    INPUT_LENGTH,
    NO_FORM,
    WIDTHS_DIFFER,
    TOO_MANY_VARIABLES,
    SHIFTED_VARIABLE,
];

/// The name of a number that an answer has.
pub fn name(refusal: u64) -> &'static str {
    match refusal {
        RULES => "refusal 18",
        NO_LIST => "refusal 32",
        _ => NAMES
            .get(refusal as usize)
            .copied()
            .unwrap_or("another refusal"),
    }
}
