use std::error::Error;
use std::fmt;

/// Why a call is refused; the numbers are those of `include/hogzelt.h`, which has no 7.
#[derive(Clone, Copy, Debug, PartialEq, Eq, Hash)]
#[non_exhaustive]
pub enum Refusal {
    /// The length of the input is 0, not a multiple of 16 or too great.
    InputLength = 1,
    /// The length of the result slice is wrong.
    ResultLength = 2,
    /// A kind above 13, a wrong size, or a non-zero byte that must be 0.
    Malformed = 3,
    /// A width of 0, above 64, or differing between records.
    Width = 4,
    /// A cast or a concatenation.
    Cast = 5,
    /// A shift count above 63.
    ShiftCount = 6,
    /// Not a sum of weighted bitwise atoms.
    Nonlinear = 8,
    /// More than 256 atoms, or more than 3,072 records in their trees.
    TableFull = 9,
    /// Not a semilinear form, or a hash that is not its tree's.
    NoForm = 10,
    /// Two expressions of different widths.
    WidthsDiffer = 11,
    /// More than five variables in two expressions together.
    TooManyVariables = 12,
    /// A shift by a count above 0 over a variable.
    ShiftedVariable = 13,
    /// Rules other than 1 and 2, which [`Rules`](crate::Rules) does not have.
    NoRules = 18,
    /// Not a run: a length that is not a multiple of 16 or too great, or a non-zero byte that
    /// must be 0.
    NoRun = 20,
    /// A day that is not above the one before.
    DaysNotRising = 21,
    /// Not a list of passes.
    NoList = 32,
}

impl Refusal {
    /// Every refusal, by rising number.
    pub const ALL: [Refusal; 16] = [
        Refusal::InputLength,
        Refusal::ResultLength,
        Refusal::Malformed,
        Refusal::Width,
        Refusal::Cast,
        Refusal::ShiftCount,
        Refusal::Nonlinear,
        Refusal::TableFull,
        Refusal::NoForm,
        Refusal::WidthsDiffer,
        Refusal::TooManyVariables,
        Refusal::ShiftedVariable,
        Refusal::NoRules,
        Refusal::NoRun,
        Refusal::DaysNotRising,
        Refusal::NoList,
    ];

    /// The number that the library returns.
    pub fn number(self) -> u64 {
        self as u64
    }

    /// What the library returned: nothing for 0, else the refusal of this number.
    ///
    /// # Panics
    ///
    /// Where the number is none of the library's.
    pub fn check(number: u64) -> Result<(), Refusal> {
        if number == 0 {
            return Ok(());
        }
        let found = Self::ALL.into_iter().find(|r| r.number() == number);
        Err(found.unwrap_or_else(|| panic!("the library has no refusal {number}")))
    }
}

impl fmt::Display for Refusal {
    fn fmt(&self, f: &mut fmt::Formatter<'_>) -> fmt::Result {
        f.write_str(match self {
            Refusal::InputLength => {
                "the length of the input is 0, not a multiple of 16 or too great"
            }
            Refusal::ResultLength => "the length of the result slice is wrong",
            Refusal::Malformed => {
                "a kind above 13, a wrong size, or a non-zero byte that must be 0"
            }
            Refusal::Width => "a width of 0, above 64, or differing between records",
            Refusal::Cast => "a cast or a concatenation",
            Refusal::ShiftCount => "a shift count above 63",
            Refusal::Nonlinear => "not a sum of weighted bitwise atoms",
            Refusal::TableFull => "more than 256 atoms, or more than 3,072 records in their trees",
            Refusal::NoForm => "not a semilinear form, or a hash that is not its tree's",
            Refusal::WidthsDiffer => "two expressions of different widths",
            Refusal::TooManyVariables => "more than five variables in two expressions together",
            Refusal::ShiftedVariable => "a shift by a count above 0 over a variable",
            Refusal::NoRules => "rules other than 1 and 2",
            Refusal::NoRun => "not a run: a wrong length, or a non-zero byte that must be 0",
            Refusal::DaysNotRising => "a day that is not above the one before",
            Refusal::NoList => "not a list of passes",
        })
    }
}

impl Error for Refusal {}
