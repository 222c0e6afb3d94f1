#!/usr/bin/env bash
# Builds the library for C: proves the crate hogzelt_c and all that it stands on, as far as this checkout has not
# yet, and puts the archive where everything here looks for it, target/staticlib/libhogzelt.a. An archive that is
# there stays as it is where the new one has the same bytes.
#   tools/build.sh
#   tools/build.sh --after-ci FILE
#                    right after rt ci, and FILE was written before it: over the libraries that rt ci proved, where
#                    it left them all; rt ci keeps them in another form than rt lib does, which would prove them again
# What rt prints goes to standard error.
# Status: 0 done, 1 something is not proved or not built, 2 wrong usage or a tool that is missing.
set -euo pipefail

stop() {
    printf 'build: %s\n' "$*" >&2
    exit 2
}

begun=
case "$#:${1:-}" in
0:) ;;
2:--after-ci) begun=$(realpath -e -- "$2") || stop "there is no file $2" ;;
*) stop "usage: tools/build.sh [--after-ci FILE]" ;;
esac
cd -- "$(dirname -- "${BASH_SOURCE[0]}")/.." > /dev/null
command -v rt > /dev/null 2>&1 || stop "rt, the Rattle toolchain, is missing"

# the libraries of this repository that a crate stands on, as crates.txt names them
below() {
    awk -v top="$1" '
    { sub(/#.*/, "") }
    split($0, line, ":") == 2 { split(line[1], word, " "); uses[word[1]] = line[2] }
    function walk(name,    n, i, dep) {
        n = split(uses[name], dep, " ")
        for (i = 1; i <= n; i++) if (dep[i] in uses && !(dep[i] in seen)) { seen[dep[i]]; print dep[i]; walk(dep[i]) }
    }
    END { walk(top) }
    ' crates.txt
}

# whether rt ci, begun after the file was written, left every library below hogzelt_c
all_left() {
    local name
    for name in $(below hogzelt_c); do
        [ "crates/$name/out/rlib/$name.rlib" -nt "$begun" ] && [ ! -e "crates/$name/out/rlib/stamp" ] || return 1
    done
}

# as rt lib builds a static library, over these libraries
build_over() {
    local kit words name
    kit=$(dirname -- "$(rt doc)")
    words=(--crate-name hogzelt_c src/lib.rt --extern "std=$kit/rlibs/std.rlib" -L "dependency=$kit/rlibs")
    for name in $(sed -n 's/^hogzelt_c staticlib://p' crates.txt); do
        words+=(--extern "$name=$PWD/crates/$name/out/rlib/$name.rlib")
    done
    for name in $(below hogzelt_c); do words+=(-L "dependency=$PWD/crates/$name/out/rlib"); done
    words+=(--antt-project "$kit/rattle/logic/antt-project.json" --logic-built "$kit/logic_built" --links hogzelt_c=)
    words+=(--jobs 2 --crate-type staticlib --toolchain "$kit/toolchain" --backend llvm -o out/libhogzelt_c.a)
    mkdir -p crates/hogzelt_c/out
    (cd crates/hogzelt_c && "$kit/bin/rattle" build "${words[@]}")
}

if [ -n "$begun" ] && all_left; then
    build_over >&2 || exit 1
else
    (cd crates/hogzelt_c && rt lib) >&2 || exit 1
fi

made=crates/hogzelt_c/out/libhogzelt_c.a
archive=target/staticlib/libhogzelt.a
[ -f "$made" ] || { printf 'build: rt made no %s\n' "$made" >&2 && exit 1; }
mkdir -p target/staticlib
if ! cmp -s -- "$made" "$archive"; then
    cp -- "$made" "$archive.$$"
    mv -- "$archive.$$" "$archive"
fi
