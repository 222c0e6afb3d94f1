/* Shortens v0 ^ 15 at width 8 by two passes, and values expression and form at v0 = 5. */
#include <inttypes.h>
#include <stdio.h>
#include "hogzelt.h"

int main(void)
{
    /* kind, argument, size (2 bytes), width, high byte of a variable's number, 0, 0, literal (8 bytes);
       children first, root last */
    const uint8_t expr[3 * HOGZELT_RECORD_BYTES] = {
        HOGZELT_VARIABLE, 0, 1, 0, 8, 0, 0, 0, 0,  0, 0, 0, 0, 0, 0, 0,   /* variable 0 */
        HOGZELT_CONSTANT, 0, 1, 0, 8, 0, 0, 0, 15, 0, 0, 0, 0, 0, 0, 0,   /* literal 15 */
        HOGZELT_XOR,      0, 3, 0, 8, 0, 0, 0, 0,  0, 0, 0, 0, 0, 0, 0,   /* Xor of the two */
    };
    const uint64_t calls[] = {
        HOGZELT_RECOVER, HOGZELT_FORM_BYTES,
        HOGZELT_REFINE, HOGZELT_FORM_BYTES,
    };
    const uint64_t vars[1] = {5};
    static uint8_t form[HOGZELT_FORM_BYTES], spare[HOGZELT_FORM_BYTES];
    uint64_t used, terms, value, refusal;

    refusal = hogzelt_run_passes(expr, sizeof expr, calls, sizeof calls / sizeof calls[0], form,
                                 sizeof form, spare, sizeof spare, &used, &terms);
    printf("shortened: %s, %" PRIu64 " bytes, %" PRIu64 " terms\n", hogzelt_refusal_text(refusal),
           used, terms);
    refusal = hogzelt_expr_value(expr, sizeof expr, vars, 1, &value);
    printf("expression: %s, value %" PRIu64 "\n", hogzelt_refusal_text(refusal), value);
    refusal = hogzelt_semilinear_value(form, used, vars, 1, &value);
    printf("form: %s, value %" PRIu64 "\n", hogzelt_refusal_text(refusal), value);
    refusal = hogzelt_expr_value(expr, sizeof expr - 1, vars, 1, &value);
    printf("cut short: %s, value %" PRIu64 "\n", hogzelt_refusal_text(refusal), value);
    return 0;
}
