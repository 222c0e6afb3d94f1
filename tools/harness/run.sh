#!/usr/bin/env bash
# The Rust harness. It compiles the published Rust sources below the directory COBRA_SRC.
#   run.sh vectors OUT       write the vector file OUT (docs/VECTORS.md) and print its counts
#   run.sh dump FILE [N]     print a vector file, or its entry N, as text
#   run.sh test              check the models against document 01's examples and the published Rust
#   run.sh compare [normalize | rules | passes | lists | weeks | judge]
#                            compare the static library with the models and the published Rust, or
#                            normalising alone, normalising by rules alone, the passes and columns alone,
#                            lists of passes alone, best weeks alone, or the judge alone
#   run.sh stack             measure the stack and the time of the functions that walk trees or a run
#   run.sh bench [DOC]       time the library beside the published Rust and print one table; with DOC,
#                            put what is printed between the marks of that document
#   run.sh both BEFORE AFTER [SECONDS]
#                            time two archives of the library beside each other on the same inputs, by
#                            turns in one process, each linked at four places; 240 seconds, or SECONDS
# compare, stack and bench build target/staticlib/libhogzelt.a by tools/build.sh. Where HOGZELT_LIB names
# an archive libhogzelt.a, that one is taken and nothing is built.
# Status: 0 done, 1 a difference or a failure, 2 something that the harness needs is missing.
set -u

stop() {
    printf 'harness: %s\n' "$*" >&2
    exit 2
}

here=$(cd "$(dirname "$0")" && pwd)
root=$(cd "$here/../.." && pwd)
command=${1:-}

case "$command" in
vectors) [ $# -eq 2 ] || stop "usage: run.sh vectors OUT" ;;
dump) [ $# -eq 2 ] || [ $# -eq 3 ] || stop "usage: run.sh dump FILE [N]" ;;
compare)
    case "$*" in
    compare | "compare normalize" | "compare rules" | "compare passes" | "compare lists" | "compare weeks") ;;
    "compare judge") ;;
    *) stop "usage: run.sh compare [normalize | rules | passes | lists | weeks | judge]" ;;
    esac
    ;;
bench) [ $# -eq 1 ] || [ $# -eq 2 ] || stop "usage: run.sh bench [DOC]" ;;
both) [ $# -eq 3 ] || [ $# -eq 4 ] || stop "usage: run.sh both BEFORE AFTER [SECONDS]" ;;
test | stack) [ $# -eq 1 ] || stop "usage: run.sh $command" ;;
*) stop "usage: run.sh vectors OUT | dump FILE [N] | test | compare [normalize | rules | passes | lists | weeks | judge] | stack | bench [DOC] | both BEFORE AFTER [SECONDS]" ;;
esac

command -v cargo >/dev/null 2>&1 || stop "cargo is missing"
[ -n "${COBRA_SRC:-}" ] || stop "COBRA_SRC, the directory of the published sources, is not set"
for file in core/src/{arith,expr,expr_utils,result} passes/src/bit_partitioner \
    ir/src/{semilinear,semilinear_normalizer,structure_recovery,term_refiner}; do
    [ -f "$COBRA_SRC/crates/cobra-$file.rs" ] || stop "COBRA_SRC has no crates/cobra-$file.rs"
done
COBRA_SRC=$(cd "$COBRA_SRC" && pwd)
export COBRA_SRC

features=()
case "$command" in
compare | stack | bench)
    BENCH_BUILT=0
    if [ -z "${HOGZELT_LIB:-}" ]; then
        BENCH_BUILT=1
        command -v rt >/dev/null 2>&1 || stop "rt is missing, and HOGZELT_LIB is not set"
        "$root/tools/build.sh" || exit 1
        HOGZELT_LIB=$root/target/staticlib/libhogzelt.a
    fi
    [ -f "$HOGZELT_LIB" ] || stop "there is no archive $HOGZELT_LIB"
    HOGZELT_LIB=$(cd "$(dirname "$HOGZELT_LIB")" && pwd)/libhogzelt.a
    export HOGZELT_LIB
    features=(--features library)
    ;;
esac

cargo=(--quiet --release --offline --locked --manifest-path "$here/Cargo.toml")
if [ "$command" = test ]; then
    cargo test "${cargo[@]}" || exit 1
    exit 0
fi
cargo build "${cargo[@]}" "${features[@]}" || exit 1
if [ "$command" = bench ]; then
    # what the benchmark says of itself
    BENCH_DATE=$(date -u +%Y-%m-%d)
    BENCH_RUSTC=$(cd "$here" && rustc --version | cut -d' ' -f1,2)
    BENCH_MACHINE="$(nproc) $(uname -m) cores,$(sed -n 's/^model name[^:]*://p' /proc/cpuinfo | head -n 1)"
    export BENCH_BUILT BENCH_DATE BENCH_RUSTC BENCH_MACHINE
fi
if [ "$command" = both ]; then
    command -v cc >/dev/null 2>&1 || stop "cc is missing"
    work=$(mktemp -d)
    trap 'rm -rf -- "$work"' EXIT
    objects=()
    for archive in "$2" -- "$3"; do
        if [ "$archive" = -- ]; then
            objects+=(--)
            continue
        fi
        [ -f "$archive" ] || stop "there is no archive $archive"
        # code that begins so many bytes past a multiple of 64
        for place in 0 16 32 48; do
            printf '.text\n.balign 64\n.fill %d, 1, 0x90\n.section .note.GNU-stack,"",@progbits\n' "$place" >"$work/place.s"
            object=$work/${#objects[@]}.so
            cc -c -o "$work/place.o" "$work/place.s" || exit 1
            cc -shared -o "$object" "$work/place.o" -Wl,--whole-archive "$archive" -Wl,--no-whole-archive || exit 1
            objects+=("$object")
        done
    done
    "$here/target/release/harness" both "${4:-240}" "${objects[@]}"
    exit
fi
exec "$here/target/release/harness" "$@"
