//! All expressions of a few records over two variables and three literals.

use crate::normal_cases::{cases, Case};
use crate::record::{binary, literal, unary, variable, Records, ADD, NEG, NOT, SHR, XOR};

/// All expressions of up to five records at two bits and of up to four at other widths: all of them,
/// or about `count`, evenly spaced.
pub fn all(count: usize) -> Vec<Case> {
    let mut list = Vec::new();
    for (w, most) in [(2, 5), (1, 4), (8, 4), (64, 4)] {
        list.extend(up_to(w, most));
    }
    let step = list.len().checked_div(count).map_or(1, |step| step | 1);
    cases(list.into_iter().step_by(step).collect())
}

/// All expressions of 1 to `most` records.
fn up_to(w: u8, most: usize) -> Vec<Records> {
    let leaves = [
        variable(w, 0),
        variable(w, 1),
        literal(w, 0),
        literal(w, 1),
        // 2 at two bits, uncut
        literal(w, 6),
    ];
    let mut by_size = vec![Vec::new(), leaves.to_vec()];
    for size in 2..=most {
        let mut made = Vec::new();
        for child in &by_size[size - 1] {
            for (kind, arg) in [(NOT, 0), (NEG, 0), (SHR, 0), (SHR, 1)] {
                made.push(unary(kind, arg, child.clone()));
            }
        }
        for left_size in 1..size - 1 {
            for left in &by_size[left_size] {
                for right in &by_size[size - 1 - left_size] {
                    for kind in ADD..=XOR {
                        made.push(binary(kind, left.clone(), right.clone()));
                    }
                }
            }
        }
        by_size.push(made);
    }
    by_size.concat()
}
