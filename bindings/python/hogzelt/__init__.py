"""Hogzelt: mixed Boolean-arithmetic expressions as short sums of weighted bitwise atoms.

    >>> import hogzelt
    >>> sheet = hogzelt.normalize("x ^ 15", 8)
    >>> str(sheet), sheet.par
    ('15 + 1*x - 2*(x & 15)', 2)
    >>> str(hogzelt.shorten("~(x + y)", 8, rules=2))
    '-1 - 1*x - 1*y'
    >>> hogzelt.equal("x + y", "(x ^ y) + 2*(x & y)", 64)
    True

The functions are those of the C library (include/hogzelt.h), loaded as a shared object. A refusal
is the exception Refused; a text that is no expression is BadText."""

from .build import NoLibrary
from .calls import (
    OPAQUE, SHORTENING, Column, Pass, Refused, Sheet, can_change_coefficient_to, can_change_mask_to,
    columns, normalize, reduce_mask, run_pass, run_passes, shorten, value,
)
from .parser import parse
from .records import Fault, read_expression, read_form
from .tokens import BadText
from .verdict import Verdict, equal, judge
from .week import Played, Week, best_week, run_bytes

__version__ = "1.6.0"

__all__ = [
    "OPAQUE", "SHORTENING", "BadText", "Column", "Fault", "NoLibrary", "Pass", "Played", "Refused",
    "Sheet", "Verdict", "Week", "best_week", "can_change_coefficient_to", "can_change_mask_to",
    "columns", "equal", "judge", "normalize", "parse", "read_expression", "read_form",
    "reduce_mask", "run_bytes", "run_pass", "run_passes", "shorten", "value",
]
