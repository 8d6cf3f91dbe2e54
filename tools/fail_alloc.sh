#!/usr/bin/env bash
# Refuses each allocation of whole runs in turn, one a run, and says whether anything but want of memory came of it.
# The gate does not run this.
#
#     tools/fail_alloc.sh                 the proved program over the examples, as bin/chomp or `rt ci` left it
#     tools/fail_alloc.sh --tests         the tests of run_tests that are made for it, as `rt ci` or `rt test` left them
#     tools/fail_alloc.sh --try [N [M]]   the same tests by `rt try --test --fail-alloc`, for each number from N (1) to M (40): it
#                                         needs no proof and looks for bad accesses too, but builds anew each time, for a minute
#
# Runs of the first two take milliseconds: a small library, loaded before the C library, answers the Nth call of malloc or realloc
# with null. A C compiler (cc) is wanted for it.
set -u

here="$(cd "$(dirname "$(readlink -f "${BASH_SOURCE[0]}")")/.." && pwd)"
program="$here/crates/chomp/out/chomp"
test_program="$here/crates/run_tests/out/run_tests_tests"
tests="memory_tests::"
work="$(mktemp -d)"
trap 'rm -rf "$work"' EXIT
bad=0

# The files of a map from the ring to itself; an empty file is the empty set.
map="examples/turn.txt examples/ring.txt /dev/null examples/ring.txt /dev/null"

# Runs of each tool, and of refusals.
runs=(
    "homcubes examples/ring.txt"
    "homcubes examples/ring.txt --mod 3 --cycles"
    "homcubes examples/middle.txt examples/ring.txt --cycles"
    "homcubes examples/box.txt"
    "homchain examples/plane.txt"
    "homchain examples/plane.txt --mod=3 --cycles"
    "cubunion examples/ring.txt examples/middle.txt"
    "cubinter examples/ring.txt examples/middle.txt"
    "cubnbhd examples/ring.txt"
    "cubcells examples/ring.txt"
    "homcubes examples/ring.txt examples/box.txt"
    "homcubes examples/plane.txt"
    "homchain examples/ring.txt"
    "cubunion examples/ring.txt examples/absent.txt"
    "homcubes --mod 4 examples/ring.txt"
    "cubdiff"
    "gen holes 2"
    "gen holes 2 --set"
    "chkmvmap examples/turn.txt examples/ring.txt examples/ring.txt"
    "homcubes --map $map --mod 3 --matrix"
    "homcubes --map $map --index --stats"
    "homcubes examples/ring.txt --witness $work/written"
    "homcubes --map $map --witness $work/written"
    "replay $work/pair examples/ring.txt"
    "replay $work/map $map"
    "replay examples/ring.txt examples/ring.txt"
)

# The witnesses that these runs test.
make_witnesses() {
    "$program" homcubes examples/ring.txt --witness "$work/pair" >"$work/out" &&
        read -ra list <<<"$map" && "$program" homcubes --map "${list[@]}" --witness "$work/map" >"$work/out"
}

make_refusing_library() {
    cc -O1 -shared -fPIC -x c -o "$work/refusing.so" - <<'C'
#include <fcntl.h>
#include <stddef.h>
#include <stdio.h>
#include <stdlib.h>
#include <unistd.h>

void *__libc_malloc(size_t);
void *__libc_realloc(void *, size_t);

static unsigned long calls, refused;

__attribute__((constructor)) static void begin(void) {
    const char *number = getenv("REFUSED_CALL");
    refused = number ? strtoul(number, NULL, 10) : 0;
}

__attribute__((destructor)) static void end(void) {
    char text[32];
    const char *path = getenv("CALLS_FILE");
    int file = path ? open(path, O_WRONLY | O_CREAT | O_TRUNC, 0600) : -1;
    int length = snprintf(text, sizeof text, "%lu\n", calls);
    if (file >= 0 && write(file, text, (size_t)length) != length)
        _exit(99);
}

void *malloc(size_t size) { return ++calls == refused ? NULL : __libc_malloc(size); }

void *realloc(void *block, size_t size) { return ++calls == refused ? NULL : __libc_realloc(block, size); }
C
}

# Runs a command in which that call is refused; none where it is 0. Its output stands in out and err, its status in `status`.
refusing() {
    local call="$1"
    shift
    # In a shell of its own, so that nothing is said of a command that a signal ends.
    (REFUSED_CALL="$call" CALLS_FILE="$work/calls" LD_PRELOAD="$work/refusing.so" "$@" >"$work/out" 2>"$work/err"; exit $?) 2>/dev/null
    status=$?
}

wrong() {
    bad=1
    echo "$1: call $2 refused: status $status"
    sed 's/^/    out: /' "$work/out" | head -5
    sed 's/^/    err: /' "$work/err" | head -5
}

# Each refused call gives the same answer, status 6 with its line alone, or status 4 or 5 where the system had no memory for a file.
check_program() {
    local words="$1" list call calls wanted memory=0 unread=0 unwritten=0 same=0
    read -ra list <<<"$words"
    refusing 0 "$program" "${list[@]}"
    wanted="$status"
    calls="$(cat "$work/calls")"
    cp "$work/out" "$work/out.wanted"
    cp "$work/err" "$work/err.wanted"
    for ((call = 1; call <= calls; call++)); do
        refusing "$call" "$program" "${list[@]}"
        if [ "$status" = 6 ] && [ ! -s "$work/out" ] && [ "$(cat "$work/err")" = "error: out of memory" ]; then
            memory=$((memory + 1))
        elif [ "$status" = "$wanted" ] && cmp -s "$work/out" "$work/out.wanted" && cmp -s "$work/err" "$work/err.wanted"; then
            same=$((same + 1))
        elif [ "$status" = 4 ] && [ ! -s "$work/out" ] && grep -q '^error: cannot read ' "$work/err"; then
            unread=$((unread + 1))
        elif [ "$status" = 5 ] && [ ! -s "$work/out" ] && grep -q '^error: cannot write ' "$work/err"; then
            unwritten=$((unwritten + 1))
        else
            wrong "$words" "$call"
        fi
    done
    echo "$words: status $wanted; $calls calls refused in turn: $memory out of memory, $unread failed reads, $unwritten failed writes, $same the same answer"
}

# A test passes, or ends with the error of its own want of memory.
check_test() {
    local name="$1" call calls passed=0
    refusing 0 "$test_program" "$name"
    [ "$status" = 0 ] || wrong "$name" 0
    calls="$(cat "$work/calls")"
    for ((call = 1; call <= calls; call++)); do
        refusing "$call" "$test_program" "$name"
        if [ "$status" = 0 ]; then
            passed=$((passed + 1))
        elif [ "$status" != 101 ] || ! grep -q '^error: Alloc' "$work/err"; then
            wrong "$name" "$call"
        fi
    done
    echo "$name: $calls calls refused in turn: $passed passed, in the others the test itself had no memory"
}

# A test that stops at an assertion, or a bad access, is wrong; one that ends with an error had no memory itself.
try_tests() {
    local call="${1:-1}" last="${2:-40}"
    cd "$here/crates/run_tests" || exit 2
    for ((; call <= last; call++)); do
        rt try --test --fail-alloc "$call" -- "$tests" >"$work/out" 2>"$work/err"
        status=$?
        if [ "$status" = 0 ] || { [ "$status" = 101 ] && ! grep -qE 'assertion|stopped at' "$work/out" "$work/err"; }; then
            echo "call $call refused: $(grep -c '\.\.\. ok' "$work/out") tests passed, $(grep -c 'error: Alloc' "$work/out") had no memory themselves"
        else
            wrong "rt try" "$call"
        fi
    done
}

need() {
    if [ ! -x "$1" ]; then
        echo "no $1 yet: run rt ci, or bin/chomp homcubes examples/ring.txt and rt test" >&2
        exit 2
    fi
    make_refusing_library || exit 2
}

cd "$here" || exit 2
case "${1:-}" in
    "")
        need "$program"
        make_witnesses || { echo "no witness was written" >&2; exit 2; }
        for words in "${runs[@]}"; do
            check_program "$words"
        done
        ;;
    --tests)
        need "$test_program"
        names="$("$test_program" --list | sed -n "s/^\($tests.*\): test\$/\1/p")"
        [ -n "$names" ] || { echo "no test $tests" >&2; exit 2; }
        for name in $names; do
            check_test "$name"
        done
        ;;
    --try)
        shift
        try_tests "$@"
        ;;
    *)
        sed -n '2,12s/^# \{0,1\}//p' "${BASH_SOURCE[0]}" >&2
        exit 2
        ;;
esac
[ "$bad" = 0 ] && echo "nothing but want of memory came of it"
exit "$bad"
