#!/usr/bin/env bash
# Holds the documents to the files: every file and every path:name of docs/CLAIMS.md is there, every relative
# link of README.md and docs/ leads to a file, and the lines that docs/CLAIMS.md counts are those of the files
# (tools/cone_lines.sh). Prints one line and ends with 0, or a line for each fault and ends with 1.
#
# A claims table begins with the line '| No. | Claim | Stated at | Proved at | Edits |'. A row has five
# cells: C and a number; a sentence (a bar in it is written \|); one or more path:name; the same; must-fail
# edits, or 'none'. Entries are separated by blanks, commas or <br>; paths start at the repository's top.
# Elsewhere in docs/CLAIMS.md each path, with or without a name, is checked too.
set -euo pipefail
cd -- "$(dirname -- "${BASH_SOURCE[0]}")/.." > /dev/null
export LC_ALL=C

claims=docs/CLAIMS.md
faults=0
rows=0
names=0
files=0
links=0

fault() {
    printf 'check_docs: %s\n' "$*" >&2
    faults=$((faults + 1))
}

# Prints 'row ID', 'fault WHERE TEXT' and 'file WHERE PATH' or 'name WHERE PATH NAME', fields parted by tabs.
read_claims() {
    awk '
    function say(kind, where, a, b) { printf "%s\t%s\t%s\t%s\n", kind, where, a, b }
    function trim(s) { gsub(/^[ \t]+|[ \t]+$/, "", s); return s }
    # one entry, path or path:name
    function entry(where, s,    at) {
        at = index(s, ":")
        if (at == 0) say("file", where, s, "-")
        else say("name", where, substr(s, 1, at - 1), substr(s, at + 1))
    }
    # a cell that holds nothing but entries
    function cell(where, title, s,    n, i, part, count) {
        gsub(/`|,|<br>/, " ", s)
        n = split(trim(s), part, /[ \t]+/)
        count = 0
        for (i = 1; i <= n; i++) {
            if (part[i] == "") continue
            count++
            if (title == "Edits") {
                if (part[i] == "none" && n == 1) continue
                if (part[i] !~ /\.edit$/) say("fault", where, "Edits: \"" part[i] "\" is no .edit file", "-")
                else entry(where, part[i])
            } else if (part[i] !~ /^[^:]+:[^:]+$/) {
                say("fault", where, title ": \"" part[i] "\" is not path:name", "-")
            } else entry(where, part[i])
        }
        if (count == 0) say("fault", where, title " is empty", "-")
    }
    # every path in running text; links are looked at below
    function text(where, s,    n, i, part, p) {
        gsub(/\[[^]]*\]\([^)]*\)/, " ", s)
        n = split(s, part, /[][ \t`,;()|<>"]+/)
        for (i = 1; i <= n; i++) {
            p = part[i]
            sub(/[.:]+$/, "", p)
            if (p ~ /\*/ || p ~ /^[a-z]+:\/\//) continue
            if (p ~ /^(crates|docs|tools|include|\.ci)\/./) entry(where, p)
            else if (p ~ /[^.\/]\.(antt|rt|edit|md|sh|h|txt)(:|$)/) entry(where, p)
        }
    }
    /^ *```/ { fenced = !fenced; next }
    fenced { next }
    !/^\|/ { table = 0 }
    /^\| *No\. *\| *Claim *\| *Stated at *\| *Proved at *\| *Edits *\|[ \t]*$/ { table = 1; tables++; next }
    table && /^\|[-: |]*\|[ \t]*$/ { next }
    table || /^\| *C[0-9]+ *\|/ {
        where = "line " NR
        line = $0
        gsub(/\\\|/, "\001", line)
        n = split(line, part, "|")
        id = trim(part[2])
        if (id !~ /^C[0-9]+$/) { say("fault", where, "\"" id "\" is not C and a number", "-"); next }
        where = id
        if (!table) { say("fault", where, "stands outside a claims table (line " NR ")", "-"); next }
        if (n != 7 || trim(part[7]) != "") { say("fault", where, "has not five cells (write a bar as \\|)", "-"); next }
        if (id in seen) say("fault", where, "stands twice (lines " seen[id] " and " NR ")", "-")
        seen[id] = NR
        say("row", where, "-", "-")
        if (trim(part[3]) == "") say("fault", where, "Claim is empty", "-")
        text(where, part[3])
        cell(where, "Stated at", part[4])
        cell(where, "Proved at", part[5])
        cell(where, "Edits", part[6])
        next
    }
    !/^ *\[[^]]+\]:/ { text("line " NR, $0) }
    END {
        if (!tables) say("fault", "no claims table", "no line | No. | Claim | Stated at | Proved at | Edits |", "-")
    }
    ' "$claims"
}

# A definition of an .antt file: a signature or a record, data or ruleset line, at the margin, or marked pub
# where it is indented (a field of a record). An axiom is none.
antt_defines() {
    NAME=$2 awk '
    BEGIN { name = ENVIRON["NAME"] }
    /^[ \t]*\{-/ { comment = 1 }
    comment { if (/-\}/) comment = 0; next }
    {
        line = $0
        indented = (line ~ /^[ \t]/)
        sub(/^[ \t]+/, "", line)
        n = split(line, w, /[ \t]+/)
        if (pending && w[1] == ":") found = 1
        pending = 0
        i = 1; open = !indented; kind = 0
        while (i <= n && w[i] ~ /^(unfoldable|abbrev|pub)$/) { if (w[i] == "pub") open = 1; i++ }
        if (i <= n && w[i] ~ /^(record|data|ruleset)$/) { kind = 1; i++ }
        if (i > n || w[i] != name || !open) next
        if (kind || (i < n && w[i + 1] ~ /^(:|\{)/)) found = 1
        else if (i == n) pending = 1
    }
    END { exit !found }
    ' "$1"
}

# A function of an .rt file.
rt_defines() {
    NAME=$2 awk '
    BEGIN { name = ENVIRON["NAME"] }
    {
        line = $0
        sub(/^[ \t]+/, "", line)
        while (sub(/^(#\[[a-z_]+\]|pub\([a-z]+\)|pub|const|extern "C")[ \t]+/, "", line)) { }
        if (line !~ /^fn[ \t]/) next
        sub(/^fn[ \t]+/, "", line)
        sub(/[^A-Za-z0-9_].*$/, "", line)
        if (line == name) found = 1
    }
    END { exit !found }
    ' "$1"
}

# A function that a C header declares.
h_declares() {
    grep -aE "(^|[^A-Za-z0-9_])$2[[:blank:]]*\(" -- "$1" > /dev/null
}

check_file() {
    local where=$1 path=$2
    case "/$path/" in
        //* | */../*) fault "$claims: $where: $path is not a path from the repository's top"; return 1 ;;
    esac
    if [ ! -e "$path" ]; then
        fault "$claims: $where: $path is missing"
        return 1
    fi
    files=$((files + 1))
}

check_name() {
    local where=$1 path=$2 name=$3
    check_file "$where" "$path" || return 0
    if [ ! -f "$path" ]; then
        fault "$claims: $where: $path is no file, so it has no $name"
        return 0
    fi
    case "$path" in
        *.antt) antt_defines "$path" "$name" || { fault "$claims: $where: $path does not define $name"; return 0; } ;;
        *.rt) rt_defines "$path" "$name" || { fault "$claims: $where: $path has no fn $name"; return 0; } ;;
        *.h)
            case "$name" in
                *[!A-Za-z0-9_]*) fault "$claims: $where: $name is no name of C"; return 0 ;;
            esac
            h_declares "$path" "$name" || { fault "$claims: $where: $path does not declare $name"; return 0; }
            ;;
        *) fault "$claims: $where: names are checked in .antt, .rt and .h files only, not in $path"; return 0 ;;
    esac
    names=$((names + 1))
}

# The targets of a document's links, one to a line with its line number, code left out.
read_links() {
    awk '
    /^ *```/ { fenced = !fenced; next }
    fenced { next }
    {
        s = $0
        gsub(/`[^`]*`/, "", s)
        if (s ~ /^ *\[[^]]+\]:[ \t]*[^ \t]/) {
            t = s
            sub(/^ *\[[^]]+\]:[ \t]*/, "", t)
            sub(/[ \t].*$/, "", t)
            print NR "\t" t
        }
        while (match(s, /\]\([^)]*\)/)) {
            t = substr(s, RSTART + 2, RLENGTH - 3)
            s = substr(s, RSTART + RLENGTH)
            gsub(/^[ \t]+/, "", t)
            sub(/[ \t].*$/, "", t)
            print NR "\t" t
        }
    }
    ' "$1"
}

check_links() {
    local doc=$1 found line target path
    found=$(read_links "$doc")
    while IFS=$'\t' read -r line target; do
        if [ -z "$line" ]; then continue; fi
        target=${target#<}
        target=${target%>}
        case "$target" in
            '' ) fault "$doc: line $line: a link without a target"; continue ;;
            '#'* | *://* | mailto:*) continue ;;
        esac
        path=${target%%#*}
        case "$path" in
            /*) path=.$path ;;
            *) path=$(dirname -- "$doc")/$path ;;
        esac
        if [ -e "$path" ]; then
            links=$((links + 1))
        else
            fault "$doc: line $line: the link to $target leads nowhere"
        fi
    done <<< "$found"
}

if [ -f "$claims" ]; then
    listed=$(read_claims)
    while IFS=$'\t' read -r kind where path name; do
        case "$kind" in
            row) rows=$((rows + 1)) ;;
            fault) fault "$claims: $where: $path" ;;
            file) check_file "$where" "$path" || true ;;
            name) check_name "$where" "$path" "$name" ;;
        esac
    done <<< "$listed"
else
    fault "$claims is missing"
fi

if [ ! -f README.md ]; then
    printf 'check_docs: README.md is missing\n' >&2
    exit 1
fi
documents=$(find README.md docs -name '*.md' -type f | sort)
while IFS= read -r doc; do
    check_links "$doc"
done <<< "$documents"

tools/cone_lines.sh > /dev/null || fault "$claims: tools/cone_lines.sh finds a fault"

if [ "$faults" -gt 0 ]; then
    printf 'check_docs: faults: %d\n' "$faults" >&2
    exit 1
fi
printf 'check_docs: %d claims, %d files and %d names in %s, %d links: all there\n' \
    "$rows" "$files" "$names" "$claims" "$links"
