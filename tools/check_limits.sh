#!/usr/bin/env bash
# Holds each limit to its one place: a number of crates/base/specs/Limits.antt (for code crates/base/src/limits.rt)
# stands nowhere else in src or specs, and the records of a run only in crates/best_week/specs/Run.antt (for code
# src/run.rt there). Prints one line and ends with 0, or a line for each fault and ends with 1.
#
# Left out: comments and `use` lines; powers (2 ^ 16); the programs' texts; `vectors` and `stored`, which are a test; `claims`, whose
# examples have coefficients and masks. 16 and 256 have other meanings too, which are listed below with their places.
set -euo pipefail
cd -- "$(dirname -- "${BASH_SOURCE[0]}")/.." > /dev/null
export LC_ALL=C.UTF-8

files=$(find crates -path 'crates/*/out' -prune -o -path '*/src/*.rt' -print -o -path '*/specs/*.antt' -print |
    grep -vE '^crates/(vectors|stored|claims)/' \
    | grep -vE '^crates/base/(specs/Limits\.antt|src/limits\.rt)$' | sort)
# shellcheck disable=SC2086
awk '
function other(file, line, n) {
    # the values of a byte, and the digits of a word in text
    if (n == 256 && file ~ /^crates\/record\//) return 1
    if (n == 256 && file == "crates/semilinear/src/items.rt" && line ~ /result ≡ x/) return 1
    if (n == 16 && file == "crates/par/src/main.rt" && line ~ /print_hex/) return 1
    # literals and variables of worked examples
    if ((n == 16 || n == 256) && file == "crates/judge_laws/specs/Examples.antt") return 1
    # arguments of a command
    if (n == 256 && file == "crates/passes/src/main.rt") return 1
    # pairs of the entries of a group
    if (n == 65536 && line ~ /Step(Ready|ped) w 65536/) return 1
    # the records of a run, in its place
    if (n == 4096 && line ~ /RUN_RECORDS: usize = 4096|^run_records = 4096/) return 1
    # how far apart the words of a loop may stand; the folds of links
    if (n == 16 && line ~ /step ≤ 16/) return 1
    if (n == 1024 && line ~ /FOLDS: usize = 1024|^folds = 1024/) return 1
    return 0
}
{
    line = $0
    if (line ~ /^(pub |ghost )?use /) next
    sub(/^[ \t]*(\/\/|--).*$/, "", line)
    sub(/[ \t](\/\/|--) .*$/, "", line)
    gsub(/b?"[^"]*"/, "", line)
    gsub(/\^ ?[0-9]+/, "", line)
    gsub(/0x[0-9A-Fa-f_]+/, "", line)
    text = line
    while (match(text, /(^|[^A-Za-z0-9_.])[0-9][0-9_]*/)) {
        word = substr(text, RSTART, RLENGTH)
        text = substr(text, RSTART + RLENGTH)
        gsub(/[^0-9]/, "", word)
        n = word + 0
        count++
        if (n != 16 && n != 256 && n != 1024 && n != 3072 && n != 4096 && n != 16384 && n != 16448 && n != 57360 && n != 65536) continue
        if (other(FILENAME, line, n)) continue
        printf "check_limits: %s:%d: %d stands here; its name is in crates/base\n", FILENAME, FNR, n > "/dev/stderr"
        faults++
    }
}
END {
    if (faults) { printf "check_limits: faults: %d\n", faults > "/dev/stderr"; exit 1 }
    printf "check_limits: %d numbers in src and specs: each limit stands in its place alone\n", count
}' $files
