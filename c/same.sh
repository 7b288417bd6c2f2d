#!/usr/bin/env bash
# Compares the C library with the program: each command must print the same bytes on standard output and on standard error and end with the
# same status, by the library as LLVM builds it and as Rattle's own compiler does, from C, and of the examples from Python too. The five jobs
# are compared on every case and every example, the commands for people on the examples and every sixth case. Prints how many of how many
# answers are the same, and ends with 0 only where all are. Where there is no C compiler it says so and ends with 0.
#
# It may stand behind `rt ci`, which leaves each library of the repository as crates/NAME/out/rlib/NAME.rlib and the program as
# crates/ringplan/out/ringplan, and of a static library nothing. So the static library is proved here once more, over those, and built twice,
# all in a temporary folder. `rt lib` is not asked for it: `rt ci` leaves its libraries without the stamp by which `rt lib` knows them, so it
# would prove every crate anew. Where a library or the program is missing, `rt lib` and `rt run` make them first, which takes up to an hour.
set -euo pipefail
export LC_ALL=C PYTHONDONTWRITEBYTECODE=1
here=$(cd "$(dirname "$0")" && pwd)
top=$(dirname "$here")
program=$top/crates/ringplan/out/ringplan

if ! command -v cc > /dev/null; then
    echo "same.sh: there is no C compiler cc, so the C library is not compared with the program"
    exit 0
fi
scratch=$(mktemp -d)
trap 'rm -rf "$scratch"' EXIT

# quietly COMMAND WORD..: runs it, and shows what it says only where it fails.
quietly() {
    local said=$scratch/said.$BASHPID
    "$@" > "$said" 2>&1 || {
        cat "$said"
        exit 1
    }
}

for name in ringplan_command ringplan_reports history_watch; do
    [ -d "$top/crates/$name/out/rlib/$name.rlib" ] || (cd "$top/crates/$name" && quietly rt lib)
done
[ -x "$program" ] || (cd "$top/crates/ringplan" && quietly rt run -- help)

# The proof, and what each compiler makes of it.
kit=$(dirname "$(dirname "$(readlink -f "$(command -v rt)")")")
words=(--crate-name ringplan_c --crate-type staticlib --links ringplan_c= --antt-project "$kit/rattle/logic/antt-project.json")
for name in std clap std_alloc core; do
    words+=(--extern "$name=$kit/rlibs/$name.rlib")
done
words+=(-L "dependency=$kit/rlibs")
for name in history_watch plan_text ring_table texts change_text ringplan_command ringplan_reports ringplan_request ringplan_answers ring_names; do
    words+=(--extern "$name=$top/crates/$name/out/rlib/$name.rlib")
done
for folder in "$top"/crates/*/out/rlib; do
    words+=(-L "dependency=$folder")
done
cd "$top/crates/ringplan_c"
quietly "$kit/bin/rattle" check "${words[@]}" --logic-built "$kit/logic_built" --jobs 2 -o "$scratch/checked" src/lib.rt

# build_by COMPILER: the library, as a `.so` too, and the program over it.
build_by() {
    local made=$scratch/$1
    mkdir "$made"
    quietly "$kit/bin/rattle" build "${words[@]}" --crate-checked "$scratch/checked" --toolchain "$kit/toolchain" --backend "$1" -o "$made/libringplan_c.a" src/lib.rt
    quietly cc -shared -o "$made/libringplan.so" -Wl,--whole-archive "$made/libringplan_c.a" -Wl,--no-whole-archive "$kit/c/liblibc_c.a" -Wl,--exclude-libs,liblibc_c.a
    for name in run watch; do
        quietly cc -O2 -o "$made/$name" "$here/$name.c" "$made/libringplan.so" "-Wl,-rpath,$made"
    done
}
build_by llvm & by_llvm=$!
build_by rattle & by_rattle=$!
wait $by_llvm
wait $by_rattle
# The packages take it from where `rt lib` would leave it.
install -D -m 644 "$scratch/llvm/libringplan_c.a" "$top/crates/ringplan_c/out/libringplan_c.a"

# answers WAY WANTED PROGRAM WORD..: counts whether the program answers the bundle with that status and with the bytes that ringplan wrote.
declare -A same all
answers() {
    local way=$1 wanted=$2 ended=0
    shift 2
    "$@" < "$bundle" > "$scratch/found" 2> "$scratch/found.errors" || ended=$?
    all[$way]=$((${all[$way]:-0} + 1))
    if [ $ended = "$wanted" ] && cmp -s "$scratch/wanted" "$scratch/found" && cmp -s "$scratch/wanted.errors" "$scratch/found.errors"; then
        same[$way]=$((${same[$way]:-0} + 1))
    else
        echo "$way: ${*:2} of ${bundle#"$top"/} is answered otherwise, with status $ended and not $wanted"
    fi
}

# compare COMMAND OPTION..: asks each way, and from C alone where the bundle is no example.
compare() {
    local status=0
    "$program" "$@" < "$bundle" > "$scratch/wanted" 2> "$scratch/wanted.errors" || status=$?
    answers "C, built by LLVM" $status "$scratch/llvm/run" "$@"
    answers "C, built by Rattle's own compiler" $status "$scratch/rattle/run" "$@"
    [[ $bundle = "$top"/examples/* ]] || return 0
    if command -v python3 > /dev/null; then
        answers "Python, built by LLVM" $status python3 "$here/run.py" "$@"
    fi
    if [ -n "$by_go" ] && [[ " $jobs " = *" $1 "* ]]; then
        answers "Go, built by LLVM" $status "$by_go" "$@"
    fi
}

export RINGPLAN_LIBRARY=$scratch/llvm/libringplan.so PYTHONPATH=$top/python
by_go=
if command -v go > /dev/null; then
    cp "$here/embed.go" "$here/ringplan.h" "$scratch/llvm"
    (cd "$scratch/llvm" && GOCACHE=$scratch/cache GO111MODULE=off quietly go build -o embed embed.go)
    by_go=$scratch/llvm/embed
fi
jobs="check plan play migrate replay"
people=$(sed -n 's/^RINGPLAN_COMMAND(\(.*\))$/\1/p' "$here/ringplan.h")
[ -n "$people" ]
SECONDS=0 number=0
for bundle in "$top"/crates/tests_program/data/*.bundle "$top"/examples/*.bundle; do
    for job in $jobs; do
        compare $job
    done
    number=$((number + 1))
    [[ $bundle = "$top"/examples/* || $((number % 6)) = 0 ]] || continue
    node=$(sed -n '/^node /{s/^node \([^ ]*\).*/\1/p;q}' "$bundle")
    node=${node:-n}
    for word in $people; do
        compare "$word"
    done
    compare goal --dead "$node" --exit-code
    compare goal --racks-behind .
    compare goal --racks-behind none
    compare goal --exit-code --format json
    compare goal --none
    compare around --dead "$node" --back
    compare show --color always --all
    compare show --format json --racks-behind .
    compare draw --map
    compare why --color always
    compare why --format json
    compare steps --moves
    compare windows --rounds 2
    compare windows --rounds 1 --only 1
    compare cert --help
done

# A watch of each example with a history: its front is the bundle, and what comes after it is the history. Whole, in pieces and cut short.
for example in "$top"/examples/*.bundle; do
    grep -q '^history 1$' "$example" || continue
    sed '/^history 1$/,$d' "$example" > "$scratch/front"
    bundle=$scratch/history
    for cut in 0 1 9; do
        sed -n '/^history 1$/,$p' "$example" | head -c -$cut > "$bundle"
        status=0
        "$program" watch "$scratch/front" < "$bundle" > "$scratch/wanted" 2> "$scratch/wanted.errors" || status=$?
        for piece in 1 7 65536; do
            for by in llvm rattle; do
                answers "Watches, built by $by" $status "$scratch/$by/watch" "$scratch/front" $piece
            done
        done
    done
done
echo "compared in $SECONDS seconds"
differing=0
for way in "${!all[@]}"; do
    echo "$way: ${same[$way]:-0} of ${all[$way]} answers are the program's"
    [ "${same[$way]:-0}" = "${all[$way]}" ] || differing=1
done
# The commands of docs/EMBEDDING.md.
"$top/trials/pages.py" docs/EMBEDDING.md || differing=1
exit $differing
