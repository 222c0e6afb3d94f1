/*
 * Hogzelt: the functions of the library, libhogzelt.a or libhogzelt.so.
 *
 * There is no global state: a call reads its inputs, writes its results and keeps nothing, so that any
 * number of threads may call at a time. Nothing is allocated; what a call needs beside its results is
 * on its stack. That is measured, not proved, and at most, rounded up to a KiB, on the longest inputs:
 *
 *   hogzelt_normalize_to_semilinear    265 KiB      hogzelt_refine_terms            426 KiB
 *   hogzelt_normalize_by_rules         281 KiB      hogzelt_recover_structure       437 KiB
 *   hogzelt_run_passes                 265 KiB      hogzelt_coalesce_terms          412 KiB
 *   hogzelt_expr_value                 129 KiB      hogzelt_flatten_complex_atoms   395 KiB
 *   hogzelt_semilinear_value           393 KiB      hogzelt_compact_atom_table      393 KiB
 *   hogzelt_compute_partitions         413 KiB      the three mask functions          1 KiB
 *   hogzelt_judge                      377 KiB      hogzelt_best_week                 1 KiB
 *
 * Every pointer must be valid for its length: expr for expr_len bytes, s for s_len bytes, left for
 * left_len and right for right_len bytes, vars for vars_len words, out for out_len bytes (for out_len
 * words of 64 bits in hogzelt_compute_partitions), calls for calls_len words, sheet for sheet_len, spare
 * for spare_len and run for run_len bytes, value, used, terms, flattened, classes, equal, place, index,
 * found, total and day for one word. A pointer with length 0 must not be null and must be aligned. What
 * is written to must overlap neither the inputs nor one another.
 */
#ifndef HOGZELT_H
#define HOGZELT_H

#include <stdbool.h>
#include <stddef.h>
#include <stdint.h>

#ifdef __cplusplus
extern "C" {
#endif

/* The version: major * 10000 + minor * 100 + patch, and as text. */
#define HOGZELT_VERSION 10600
#define HOGZELT_VERSION_TEXT "1.6.0"

/* Lengths: of a record, of the longest expression, and of the result slices. */
#define HOGZELT_RECORD_BYTES 16
#define HOGZELT_EXPR_BYTES 16384     /* at most */
#define HOGZELT_FORM_BYTES 57360     /* out_len, but for columns */
#define HOGZELT_COLUMN_WORDS 16448   /* out_len of hogzelt_compute_partitions */
#define HOGZELT_MOST_ATOMS 256
#define HOGZELT_MOST_TREE_RECORDS 3072
#define HOGZELT_RUN_BYTES 65536      /* run_len, at most */

/*
 * Byte 0 of the records of an expression, and of a form. The number of a variable, 0 to 65,535, has its
 * low byte in byte 1 and its high byte in byte 5, which is 0 in every other record. Byte 1 of a head is
 * 4 in every form that is written; in one that is read it is 0 to 4, and nothing depends on it.
 */
enum hogzelt_kind {
    HOGZELT_CONSTANT = 0,
    HOGZELT_VARIABLE = 1,
    HOGZELT_ADD = 2,
    HOGZELT_MUL = 3,
    HOGZELT_AND = 4,
    HOGZELT_OR = 5,
    HOGZELT_XOR = 6,
    HOGZELT_NOT = 7,
    HOGZELT_NEG = 8,
    HOGZELT_SHR = 9,
    HOGZELT_ZEXT = 10,
    HOGZELT_SEXT = 11,
    HOGZELT_TRUNC = 12,
    HOGZELT_CONCAT = 13,
    HOGZELT_SUM = 32,
    HOGZELT_HEAD = 33,
    HOGZELT_TERM = 34
};

/* The passes, by their numbers in a list of calls. */
enum hogzelt_pass {
    HOGZELT_REFINE = 1,
    HOGZELT_RECOVER = 2,
    HOGZELT_COALESCE = 3,
    HOGZELT_FLATTEN = 4,
    HOGZELT_COMPACT = 5
};

/* The rules by which an expression is normalised. */
enum hogzelt_rules {
    HOGZELT_RULES_1 = 1,
    HOGZELT_RULES_2 = 2
};

/* What is returned. 7 is not used; before 1.2.0 it was a sum in a part without a variable. */
enum hogzelt_refusal {
    HOGZELT_ACCEPTED = 0,
    HOGZELT_INPUT_LENGTH = 1,
    HOGZELT_RESULT_LENGTH = 2,
    HOGZELT_MALFORMED = 3,
    HOGZELT_WIDTH = 4,
    HOGZELT_CAST = 5,
    HOGZELT_SHIFT_COUNT = 6,
    HOGZELT_NONLINEAR = 8,
    HOGZELT_TABLE_FULL = 9,
    HOGZELT_NO_FORM = 10,
    HOGZELT_WIDTHS_DIFFER = 11,
    HOGZELT_TOO_MANY_VARIABLES = 12,
    HOGZELT_SHIFTED_VARIABLE = 13,
    HOGZELT_NO_RULES = 18,
    HOGZELT_NO_RUN = 20,
    HOGZELT_DAYS_NOT_RISING = 21,
    HOGZELT_NO_LIST = 32
};

/* An atom's word among the columns that is no table: this, with the atom's number in the low bits. */
#define HOGZELT_OPAQUE UINT64_C(0xDEAD000000000000)

/* The version that the caller was compiled with. */
static inline uint64_t hogzelt_version(void)
{
    return HOGZELT_VERSION;
}

/* A refusal in words. */
static inline const char *hogzelt_refusal_text(uint64_t refusal)
{
    switch (refusal) {
    case HOGZELT_ACCEPTED: return "accepted";
    case HOGZELT_INPUT_LENGTH: return "the length of the input is 0, not a multiple of 16 or too great";
    case HOGZELT_RESULT_LENGTH: return "the length of the result slice is wrong";
    case HOGZELT_MALFORMED: return "a kind above 13, a wrong size, or a non-zero byte that must be 0";
    case HOGZELT_WIDTH: return "a width of 0, above 64, or differing between records";
    case HOGZELT_CAST: return "a cast or a concatenation";
    case HOGZELT_SHIFT_COUNT: return "a shift count above 63";
    case HOGZELT_NONLINEAR: return "not a sum of weighted bitwise atoms";
    case HOGZELT_TABLE_FULL: return "more than 256 atoms, or more than 3,072 records in their trees";
    case HOGZELT_NO_FORM: return "not a semilinear form, or a hash that is not its tree's";
    case HOGZELT_WIDTHS_DIFFER: return "the widths of the two differ";
    case HOGZELT_TOO_MANY_VARIABLES: return "more than five variables in the two together";
    case HOGZELT_SHIFTED_VARIABLE: return "a shift by more than 0 over a variable";
    case HOGZELT_NO_RULES: return "rules other than 1 and 2";
    case HOGZELT_NO_RUN: return "not a run: a wrong length, or a non-zero byte that must be 0";
    case HOGZELT_DAYS_NOT_RISING: return "a day that is not above the one before";
    case HOGZELT_NO_LIST: return "not a list of passes";
    default: return "no refusal of this library";
    }
}

/*
 * The value of an expression file (document 01: tangle file) under an assignment. Returns 0 for
 * accepted, else the lowest refusal that applies:
 *   1  length 0, not a multiple of 16 or above 16,384
 *   3  a kind above 13, a wrong size or a non-zero byte that must be 0
 *   4  a width that is 0, above 64 or not the same in all records
 *   5  a cast or Concat
 *   6  a shift count above 63
 * *value is the value, below 2^w, and 0 beside a refusal. The assignment is vars_len words:
 * variable i is word i modulo 2^w, and 0 beyond the end. There are 65,536 variables: words behind these
 * are not read.
 */
uint64_t hogzelt_expr_value(const uint8_t *expr, size_t expr_len, const uint64_t *vars,
                            size_t vars_len, uint64_t *value);

/*
 * The bits of mask that can reach coeff * (mask & x) modulo 2^w: those below w less the trailing
 * zeros of coeff, none where the trailing zeros reach w. A coefficient of 0 has 64 of them. Every
 * width is accepted.
 */
uint64_t hogzelt_reduce_mask(uint64_t coeff, uint64_t mask, uint32_t w);

/*
 * Whether old_mask and new_mask agree on every bit that hogzelt_reduce_mask keeps for coeff; up to
 * width 64: whether coeff * (old_mask & x) = coeff * (new_mask & x) modulo 2^w for all x. Every
 * width is accepted.
 */
bool hogzelt_can_change_mask_to(uint64_t coeff, uint64_t old_mask, uint64_t new_mask, uint32_t w);

/*
 * Whether no bit of mask is kept by hogzelt_reduce_mask for old_coeff - new_coeff, taken modulo
 * 2^w and modulo 2^64; up to width 64: whether old_coeff * (mask & x) = new_coeff * (mask & x)
 * modulo 2^w for all x. Every width is accepted.
 */
bool hogzelt_can_change_coefficient_to(uint64_t old_coeff, uint64_t new_coeff, uint64_t mask,
                                       uint32_t w);

/*
 * The value of a semilinear form (document 01: sheet) under an assignment: the constant plus each
 * coefficient times its atom, modulo 2^w. Returns 0 for accepted, else the lowest refusal that
 * applies:
 *    1  length 0, not a multiple of 16 or above 57,360
 *   10  not a form, a hash that is not the tree's, or bytes behind the sum record, zeros too
 * *value is the value, below 2^w, and 0 beside a refusal. The assignment is as above.
 */
uint64_t hogzelt_semilinear_value(const uint8_t *s, size_t s_len, const uint64_t *vars,
                                  size_t vars_len, uint64_t *value);

/*
 * A semilinear form without the atoms that have no term; the others keep their order and are
 * numbered from 0. The value is that of the form given, under every assignment. out_len must be
 * 57,360. Returns 0 for accepted, else the lowest refusal that applies:
 *    1  s_len is 0, not a multiple of 16 or above 57,360
 *    2  out_len is not 57,360
 *   10  s is not a form, as above
 * All of out is written. Where the form is accepted, its first *used bytes are the result, a form
 * again, the rest is zero, and *terms is the count of the result's terms. Beside a refusal all
 * out_len bytes are zero, and so are *used and *terms.
 */
uint64_t hogzelt_compact_atom_table(const uint8_t *s, size_t s_len, uint8_t *out, size_t out_len,
                                    uint64_t *used, uint64_t *terms);

/*
 * The semilinear form of an expression file: its value is that of the expression, under every
 * assignment. A part without a variable has its value at w bits where it is a summand or a factor,
 * whatever its operators: 3 & (1 + 2) is the constant 3. out_len must be 57,360. Returns 0 for
 * accepted, else the lowest refusal that applies:
 *   1  expr_len is 0, not a multiple of 16 or above 16,384
 *   2  out_len is not 57,360
 *   3 to 6  as for hogzelt_expr_value
 *   8  not linear: a product of two factors with variables, or an And, Or, Xor, Not or shift with a
 *      variable over an Add, Mul or Neg, also where this one has no variable; what has a coefficient
 *      of 0 modulo 2^w is not looked at
 *   9  the atoms, those without a term counted, are more than 256 or their trees have more than
 *      3,072 records
 * All of out is written. Where the expression is accepted, the first *used bytes are the form, the
 * rest is zero, and *terms is the count of its terms. Beside a refusal all out_len bytes are zero,
 * and so are *used and *terms.
 */
uint64_t hogzelt_normalize_to_semilinear(const uint8_t *expr, size_t expr_len, uint8_t *out,
                                         size_t out_len, uint64_t *used, uint64_t *terms);

/*
 * The semilinear form of an expression file by the rules that the caller names, 1 or 2: its value is
 * that of the expression, under every assignment. By rules 1 every result is that of
 * hogzelt_normalize_to_semilinear. By rules 2 the expression is rewritten in two steps, each of which
 * keeps its value, and the result is that of rules 1 for the expression so rewritten, however many
 * records this has:
 *   - Each part without a variable below an And, Or, Xor or Not, a literal included, becomes one
 *     literal, cut to w bits: at 8 bits a ^ (-1) becomes a ^ 255, a & 271 becomes a & 15 and
 *     a ^ (3 & (1 + 2)) becomes a ^ 3.
 *   - Then each Not with an Add, Mul or Neg below it becomes -e - 1, where e is its operand, and no
 *     other does: ~(a + b) becomes -(a + b) - 1, and ~a stays an atom, as does ~((1 + 2) & a), which
 *     the first step makes ~(3 & a).
 * out_len must be 57,360. Returns 0 for accepted, else the first of these that applies:
 *   18  rules is neither 1 nor 2, whatever the other arguments are
 *    1  expr_len is 0, not a multiple of 16 or above 16,384
 *    2  out_len is not 57,360
 *    3 to 6  as for hogzelt_expr_value, of the file as it is given
 *    8, 9  as for hogzelt_normalize_to_semilinear, under rules 2 of the expression as it is rewritten:
 *       ~(a * b), a & ~(b + 1) and ~(a + b) & 15 are not linear there either
 * All of out is written. Where the expression is accepted, the first *used bytes are the form, the
 * rest is zero, and *terms is the count of its terms. Beside a refusal all out_len bytes are zero,
 * and so are *used and *terms.
 * The other functions keep to rules 1, hogzelt_run_passes among them: under rules 2 a list of passes
 * is a call of this function and then one of each pass, of which a refused one leaves the form in use.
 */
uint64_t hogzelt_normalize_by_rules(uint64_t rules, const uint8_t *expr, size_t expr_len, uint8_t *out,
                                    size_t out_len, uint64_t *used, uint64_t *terms);

/*
 * A semilinear form with its terms refined: masks are cut to the bits that count, and terms of one
 * basis are dropped, joined and collapsed where their sum stays the same. A variable is its own basis;
 * the basis of an And with one side without a variable is that of the other side, or that side itself
 * where it has none, and masks upon masks are joined: (a & 60) & 15 has the basis a and the mask 12. The
 * value is that of the form given, under every assignment; atoms that lose their term stay. out_len
 * must be 57,360.
 * Returns 0 for accepted, else the lowest refusal that applies:
 *    1  s_len is 0, not a multiple of 16 or above 57,360
 *    2  out_len is not 57,360
 *   10  s is not a form, as for hogzelt_semilinear_value
 *    9  the result's atoms, those without a term counted, are more than 256 or their trees have more
 *       than 3,072 records; where 10 applies too, 10 is given
 * All of out is written. Where the form is accepted, its first *used bytes are the result, the rest
 * is zero, and *terms is the count of the result's terms. Beside a refusal all out_len bytes are
 * zero, and so are *used and *terms.
 */
uint64_t hogzelt_refine_terms(const uint8_t *s, size_t s_len, uint8_t *out, size_t out_len,
                              uint64_t *used, uint64_t *terms);

/*
 * A semilinear form with its structure recovered: two terms of one basis under masks that complement
 * each other become one term of an Xor, or lose one of the masks. The value is that of the form given,
 * under every assignment; atoms that lose their term stay. Refusals, out, *used and *terms are as for
 * hogzelt_refine_terms.
 */
uint64_t hogzelt_recover_structure(const uint8_t *s, size_t s_len, uint8_t *out, size_t out_len,
                                   uint64_t *used, uint64_t *terms);

/*
 * A semilinear form with the terms of each variable coalesced: where that leaves fewer terms, one term
 * stands for all bits of the variable that have the same coefficient. The value is that of the form
 * given, under every assignment; atoms that lose their term stay. Refusals, out, *used and *terms are
 * as for hogzelt_refine_terms.
 */
uint64_t hogzelt_coalesce_terms(const uint8_t *s, size_t s_len, uint8_t *out, size_t out_len,
                                uint64_t *used, uint64_t *terms);

/*
 * A semilinear form in which every term of an atom that has one variable, no shift and is neither
 * this variable nor it under masks is written as a constant, the bits that the variable passes and
 * those that it inverts. The value is that of the form given, under every assignment. Refusals, out,
 * *used and *terms are as for hogzelt_refine_terms. *flattened is 1 where there was such a term, 0
 * where there was none, and 0 beside a refusal.
 */
uint64_t hogzelt_flatten_complex_atoms(const uint8_t *s, size_t s_len, uint8_t *out, size_t out_len,
                                       uint64_t *used, uint64_t *terms, uint64_t *flattened);

/*
 * The places of a semilinear form, 0 to w - 1, in classes (document 01: hint columns): the places at
 * which all atoms have the same table. out_len counts words and must be 16,448. Returns 0 for
 * accepted, else the lowest refusal that applies: 1 and 10 as for hogzelt_semilinear_value, and
 * between them 2 where out_len is not 16,448.
 * For each class, by rising lowest place, out has its mask and then one word for each atom, used or
 * not; the rest of out is zero and *classes is the count of classes, 0 without atoms. Bit i of an
 * atom's word is the atom's bit at the places of the class when its j-th smallest variable has bit j
 * of i there; the bits from 2^n up are 0, where n is the number of its variables. An atom of more
 * than five variables or with a shift by another count than 0 has the word 0xDEAD000000000000 with
 * its number in the low bits. Beside a refusal all of out and *classes are zero.
 */
uint64_t hogzelt_compute_partitions(const uint8_t *s, size_t s_len, uint64_t *out, size_t out_len,
                                    uint64_t *classes);

/*
 * The semilinear form in use after a list of passes, run from an expression file: the expression is
 * normalised into sheet by rules 1, and then each call reads the form in use and gives the next one; a
 * call that is refused leaves the form in use. The value is that of the expression, under every
 * assignment. calls has two words for a call: the pass, 1 for hogzelt_refine_terms, 2 for
 * hogzelt_recover_structure, 3 for hogzelt_coalesce_terms, 4 for hogzelt_flatten_complex_atoms and 5
 * for hogzelt_compact_atom_table, and the length in bytes of the result slice that is lent to it; with
 * another length than 57,360 it is refused. calls_len counts words; there may be any number of calls,
 * 0 too. sheet and spare take turns as result slices:
 * sheet_len must be 57,360, and spare_len at least the greatest of the lengths. Returns 0 for
 * accepted, else the first of these that applies:
 *    1  as for hogzelt_normalize_to_semilinear
 *    2  sheet_len is not 57,360
 *   32  calls_len is odd, a pass is none of these, or a length is above spare_len or sheet_len
 *   3 to 6, 8, 9  as for hogzelt_normalize_to_semilinear
 * All of sheet and spare is written. Where the list is accepted, the first *used bytes of sheet are
 * the form in use after the last call, the rest is zero, and *terms is the count of its terms. Beside
 * a refusal all of sheet is zero, and so are *used and *terms. spare is left all zero.
 */
uint64_t hogzelt_run_passes(const uint8_t *expr, size_t expr_len, const uint64_t *calls,
                            size_t calls_len, uint8_t *sheet, size_t sheet_len, uint8_t *spare,
                            size_t spare_len, uint64_t *used, uint64_t *terms);

/*
 * The judge of two expression files: whether they have the same value under every assignment. Both
 * must be such that hogzelt_normalize_to_semilinear takes them, which is by rules 1. Returns 0 where
 * the two are judged, else the first of these that applies:
 *   1, 3 to 6, 8, 9  the lowest refusal of the left, as for hogzelt_normalize_to_semilinear; then that
 *       of the right
 *   11  the widths differ
 *   12  the two have more than five variables together
 *   13  a shift with a count above 0 has a variable below it, in either
 * The variables and shifts of the files as they are given count, also below a factor of 0.
 * *equal is 1 exactly where the two have the same value under every assignment; then *place and *index
 * are 0. Else *equal is 0, and *place and *index name an assignment under which the values differ: at
 * that place the j-th smallest of the variables of the two together, j from 0, has bit j of the index,
 * and all other bits are 0. It is the first such assignment by place, then by index; place 0 and index
 * 0 are all zeros. Beside a refusal *equal, *place and *index are 0.
 */
uint64_t hogzelt_judge(const uint8_t *left, size_t left_len, const uint8_t *right, size_t right_len,
                       uint64_t *equal, uint64_t *place, uint64_t *index);

/*
 * The best seven days of a run. A run is at most 4,096 records of 16 bytes, one for each day that was
 * played: the day in bytes 0 to 3, its par in bytes 4 and 5 and the moves in bytes 6 and 7, each
 * little-endian, and zeros behind. Of all seven neighbouring records whose days are consecutive,
 * *total is the lowest total of moves minus par, and *day the first day of the earliest seven that
 * have it. *found is 1 where there are such seven; else *found, *total and *day are 0.
 * Returns 0 for accepted, else the first refusal that applies:
 *   20  run_len is not a multiple of 16 or above 65,536, or a byte 8 to 15 of a record is not 0
 *   21  a day that is not above the one before
 * Beside a refusal *found, *total and *day are 0. A run of length 0 is accepted.
 */
uint64_t hogzelt_best_week(const uint8_t *run, size_t run_len, uint64_t *found, int64_t *total,
                           uint64_t *day);

#ifdef __cplusplus
}
#endif

#endif
