"""The functions of the shared object (include/hogzelt.h), as they are."""

from __future__ import annotations

import ctypes
import os
from ctypes import POINTER, c_bool, c_char_p, c_int64, c_size_t, c_uint8, c_uint32, c_uint64

from .build import NoLibrary, checkout, shared_object

BYTES, WORDS, NUMBER = POINTER(c_uint8), POINTER(c_uint64), POINTER(c_uint64)
WRITER = [c_char_p, c_size_t, BYTES, c_size_t, NUMBER, NUMBER]

SIGNATURES = {
    "hogzelt_expr_value": [c_char_p, c_size_t, WORDS, c_size_t, NUMBER],
    "hogzelt_semilinear_value": [c_char_p, c_size_t, WORDS, c_size_t, NUMBER],
    "hogzelt_reduce_mask": [c_uint64, c_uint64, c_uint32],
    "hogzelt_can_change_mask_to": [c_uint64, c_uint64, c_uint64, c_uint32],
    "hogzelt_can_change_coefficient_to": [c_uint64, c_uint64, c_uint64, c_uint32],
    "hogzelt_normalize_to_semilinear": WRITER,
    "hogzelt_normalize_by_rules": [c_uint64, *WRITER],
    "hogzelt_refine_terms": WRITER,
    "hogzelt_recover_structure": WRITER,
    "hogzelt_coalesce_terms": WRITER,
    "hogzelt_flatten_complex_atoms": [*WRITER, NUMBER],
    "hogzelt_compact_atom_table": WRITER,
    "hogzelt_compute_partitions": [c_char_p, c_size_t, WORDS, c_size_t, NUMBER],
    "hogzelt_run_passes": [
        c_char_p, c_size_t, WORDS, c_size_t, BYTES, c_size_t, BYTES, c_size_t, NUMBER, NUMBER,
    ],
    "hogzelt_judge": [c_char_p, c_size_t, c_char_p, c_size_t, NUMBER, NUMBER, NUMBER],
    "hogzelt_best_week": [c_char_p, c_size_t, NUMBER, POINTER(c_int64), NUMBER],
}
TESTS = ("hogzelt_can_change_mask_to", "hogzelt_can_change_coefficient_to")


def find() -> str:
    """The shared object: that which HOGZELT_SO names, else the one beside this file (installed by
    pip), else that of the checkout, else the one that the system's loader finds."""
    named = os.environ.get("HOGZELT_SO")
    if named:
        return os.path.abspath(named)
    beside = os.path.join(os.path.dirname(os.path.realpath(__file__)), "libhogzelt.so")
    if os.path.isfile(beside):
        return beside
    top = checkout()
    return shared_object(top) if top else "libhogzelt.so.1"


def load() -> ctypes.CDLL:
    path = find()
    try:
        library = ctypes.CDLL(path)
        for name, arguments in SIGNATURES.items():
            function = getattr(library, name)
            function.argtypes = arguments
            function.restype = c_bool if name in TESTS else c_uint64
    except (OSError, AttributeError) as bad:
        raise NoLibrary(f"{path} cannot be used: {bad}; HOGZELT_SO can name another") from None
    return library
