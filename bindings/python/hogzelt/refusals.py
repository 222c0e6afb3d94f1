"""The refusals of the library by number (include/hogzelt.h), each in a sentence."""

# those that the package itself names
INPUT_LENGTH, NO_RULES, NO_LIST = 1, 18, 32
WIDTHS_DIFFER, TOO_MANY_VARIABLES, SHIFTED_VARIABLE = 11, 12, 13

REFUSALS = {
    1: "the length is 0, not a multiple of 16, or above 16,384 bytes (tangle) or 57,360 (sheet)",
    2: "the length of the result slice is wrong",
    3: "a kind above 13, a wrong size, or a non-zero byte that must be 0",
    4: "a width of 0, above 64, or differing between records",
    5: "a cast or a concatenation",
    6: "a shift count above 63",
    8: "not a sum of weighted bitwise atoms, as a*b or a & (b + c)",
    9: "more than 256 atoms, or more than 3,072 records in their trees",
    10: "not a sheet, or a hash that is not its tree's",
    11: "the widths of the two differ",
    12: "more than five variables in the two together",
    13: "a shift by more than 0 over a variable",
    18: "rules other than 1 and 2",
    20: "not a run: a wrong length, or a non-zero byte that must be 0",
    21: "a day that is not above the one before",
    32: "not a list of passes",
}

# what a library before 1.2.0 gives, and a file that its `par` wrote may hold; the number has no
# other use
RETIRED = {
    7: "a sum or product below bitwise operators without a variable; since 1.2.0 it is a number",
}


def meaning(number: int) -> str:
    return REFUSALS.get(number) or RETIRED.get(number, "unknown")
