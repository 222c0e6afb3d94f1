//! The functions of the library as they are; `include/hogzelt.h` says what each does and asks for.

/// A function that writes a form: input, result slice, used length and count of terms.
pub type Writer = unsafe extern "C" fn(*const u8, usize, *mut u8, usize, *mut u64, *mut u64) -> u64;

/// Functions of the type [`Writer`].
macro_rules! writers {
    ($($name:ident),* $(,)?) => {
        extern "C" {
            $(pub fn $name(
                input: *const u8,
                input_len: usize,
                out: *mut u8,
                out_len: usize,
                used: *mut u64,
                terms: *mut u64,
            ) -> u64;)*
        }
    };
}

writers!(
    hogzelt_normalize_to_semilinear,
    hogzelt_refine_terms,
    hogzelt_recover_structure,
    hogzelt_coalesce_terms,
    hogzelt_compact_atom_table,
);

extern "C" {
    pub fn hogzelt_expr_value(
        expr: *const u8,
        expr_len: usize,
        vars: *const u64,
        vars_len: usize,
        value: *mut u64,
    ) -> u64;
    pub fn hogzelt_semilinear_value(
        s: *const u8,
        s_len: usize,
        vars: *const u64,
        vars_len: usize,
        value: *mut u64,
    ) -> u64;
    pub fn hogzelt_normalize_by_rules(
        rules: u64,
        expr: *const u8,
        expr_len: usize,
        out: *mut u8,
        out_len: usize,
        used: *mut u64,
        terms: *mut u64,
    ) -> u64;
    pub fn hogzelt_flatten_complex_atoms(
        s: *const u8,
        s_len: usize,
        out: *mut u8,
        out_len: usize,
        used: *mut u64,
        terms: *mut u64,
        flattened: *mut u64,
    ) -> u64;
    pub fn hogzelt_compute_partitions(
        s: *const u8,
        s_len: usize,
        out: *mut u64,
        out_len: usize,
        classes: *mut u64,
    ) -> u64;
    pub fn hogzelt_run_passes(
        expr: *const u8,
        expr_len: usize,
        calls: *const u64,
        calls_len: usize,
        sheet: *mut u8,
        sheet_len: usize,
        spare: *mut u8,
        spare_len: usize,
        used: *mut u64,
        terms: *mut u64,
    ) -> u64;
    pub fn hogzelt_best_week(
        run: *const u8,
        run_len: usize,
        found: *mut u64,
        total: *mut i64,
        day: *mut u64,
    ) -> u64;
    pub fn hogzelt_judge(
        left: *const u8,
        left_len: usize,
        right: *const u8,
        right_len: usize,
        equal: *mut u64,
        place: *mut u64,
        index: *mut u64,
    ) -> u64;
    pub fn hogzelt_reduce_mask(coeff: u64, mask: u64, w: u32) -> u64;
    pub fn hogzelt_can_change_mask_to(coeff: u64, old_mask: u64, new_mask: u64, w: u32) -> bool;
    pub fn hogzelt_can_change_coefficient_to(
        old_coeff: u64,
        new_coeff: u64,
        mask: u64,
        w: u32,
    ) -> bool;
}
