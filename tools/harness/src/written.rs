//! What a function that writes a form hands over.

use crate::form::{Form, RESULT_BYTES};

/// The refusal; the used length, the count of terms and the flag, all 0 beside a refusal; and every
/// byte of the result slice. The flag is that of flattening, 1 where an atom was flattened, and 0 in
/// all other functions.
#[derive(Clone, Debug, PartialEq, Eq)]
pub struct Written {
    pub refusal: u64,
    pub used: u64,
    pub terms: u64,
    pub flag: u64,
    pub out: Vec<u8>,
}

impl Written {
    /// The refusal and the numbers.
    #[cfg(any(feature = "library", test))]
    pub fn numbers(&self) -> [u64; 4] {
        [self.refusal, self.used, self.terms, self.flag]
    }

    /// The used bytes, those of the form.
    pub fn form(&self) -> &[u8] {
        &self.out[..self.used as usize]
    }
}

/// What a refused call hands over: zeros in the whole slice.
pub fn refused(refusal: u64, length: usize) -> Written {
    Written {
        refusal,
        used: 0,
        terms: 0,
        flag: 0,
        out: vec![0; length],
    }
}

/// What an accepted call hands over: the bytes of the form and zeros behind them. A form that is too
/// long for the slice keeps its length.
pub fn written(form: &Form) -> Written {
    let mut out = form.bytes();
    let used = out.len() as u64;
    out.resize(RESULT_BYTES.max(out.len()), 0);
    Written {
        refusal: 0,
        used,
        terms: form.terms.len() as u64,
        flag: 0,
        out,
    }
}

/// What the Rust's answer is in document 01's bytes.
pub fn of(answer: Result<Form, u64>) -> Written {
    match answer {
        Ok(form) => written(&form),
        Err(refusal) => refused(refusal, RESULT_BYTES),
    }
}
