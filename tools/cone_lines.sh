#!/usr/bin/env bash
# Counts the lines of the definitions that docs/CLAIMS.md lists under "Reading order".
#   cone_lines.sh          hold the figures of the page to the files, and print the sums; status 1 where one is wrong
#   cone_lines.sh write    put the right figures into the page
# A table begins with a line '| File | Definitions | Lines |' and one more column. Its rows have a path, the names of
# definitions of that file or 'all', and a figure; a row that begins with 'together' has the sum of those above it, and
# one that begins with 'in all' the sum of all rows since the last heading.
# A definition's lines are its clauses and `where` part with the comment right above it; what stands in a `module _`
# counts as one. 'all' is every line of the file. Blank lines, `use` and `mod` lines, a file's header and the titles
# of its parts are not counted.
set -euo pipefail
cd -- "$(dirname -- "${BASH_SOURCE[0]}")/.." > /dev/null
export LC_ALL=C

page=docs/CLAIMS.md
mode=${1:-check}
case "$mode" in
check | write) ;;
*)
    printf 'usage: cone_lines.sh [write]\n' >&2
    exit 2
    ;;
esac

counted=$(mktemp)
trap 'rm -f "$counted"' EXIT

status=0
awk -v page="$page" -v write="$mode" '
function trim(s) { gsub(/^[ \t]+|[ \t]+$/, "", s); return s }
function fault(text) { printf "cone_lines: %s: line %d: %s\n", page, NR, text > "/dev/stderr"; bad = 1 }
# the names that a line of code at the start of a part defines
function named(line,    w, n, i) {
    sub(/^[ \t]+/, "", line)
    n = split(line, w, /[ \t({:]+/)
    i = 1
    while (i <= n && w[i] ~ /^(unfoldable|abbrev|pub|record|data)$/) i++
    return i <= n ? w[i] : ""
}
# reads a file into parts: size[k] lines, and part[NAME] the part that defines NAME
function parts(path,    line, header, text, k, open, found, held, inside) {
    split("", size); split("", part); k = 0; header = 1; text = 0; open = 0; found = 0
    while ((getline line < path) > 0) {
        found = 1
        if (line ~ /^[ \t]*$/) { open = 0; header = 0; continue }
        if (line ~ /^(pub |ghost )?(use|mod) /) { header = 0; continue }
        if (header && line ~ /^(--|\/\/)/) continue
        header = 0
        if (line ~ /^-- ----/) continue
        if (!open) { open = 1; text = 0; held = 0 }
        if (line ~ /^[ \t]*(--|\/\/)/ && !text) { held++; continue }
        if (!text) {
            text = 1
            if (line !~ /^[ \t]/ || k == 0) { k++; size[k] = 0; inside = (line ~ /^module _/) }
            size[k] += held
            if (!inside && line !~ /^[ \t]/) part[named(line)] = k
        }
        if (inside && line ~ /^[ \t]+(unfoldable |abbrev )?pub /) part[named(line)] = k
        size[k]++
    }
    close(path)
    return found ? k : -1
}
function count(path, names,    n, w, i, k, last, sum, seen) {
    last = parts(path)
    if (last < 0) { fault(path " is missing"); return 0 }
    sum = 0
    if (names == "all") { for (k = 1; k <= last; k++) sum += size[k]; return sum }
    gsub(/[`,]/, " ", names)
    n = split(trim(names), w, /[ \t]+/)
    split("", seen)
    for (i = 1; i <= n; i++) {
        if (!(w[i] in part)) { fault(path " does not define " w[i]); continue }
        if (part[w[i]] in seen) continue
        seen[part[w[i]]] = 1
        sum += size[part[w[i]]]
    }
    return sum
}
/^#/ { title = $0; sub(/^#+ */, "", title); whole = 0 }
!/^\|/ { table = 0 }
/^\| *File *\| *Definitions *\| *Lines *\|/ { table = 1; total = 0; print; next }
table && /^\|[-: |]*$/ { print; next }
table {
    n = split($0, cell, "|")
    name = trim(cell[2]); gsub(/`/, "", name)
    summed = 1
    if (name ~ /^together/) lines = total
    else if (name ~ /^in all/) lines = whole
    else { summed = 0; lines = count(name, trim(cell[3])); total += lines; whole += lines }
    if (trim(cell[4]) != lines "" && write != "write") fault(name ": " lines " lines, not " trim(cell[4]))
    if (summed) printf "cone_lines: %s, %s: %d lines\n", title, name, lines | "cat >&3"
    cell[4] = " " lines " "
    row = cell[1]
    for (i = 2; i <= n; i++) row = row "|" cell[i]
    print row
    next
}
{ print }
END { close("cat >&3"); exit bad }
' "$page" 3>&1 > "$counted" || status=$?

if [ "$mode" = write ] && [ "$status" -eq 0 ]; then
    cat -- "$counted" > "$page"
fi
exit "$status"
