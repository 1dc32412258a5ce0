#!/usr/bin/env bash
# Runs the built program on much more than the worked logs have, and fails where its answers or its memory are others
# than they should be.
#
# usage: docs/measure/size.sh [PROGRAM]        crates/crs/out/crs where none is given
#
# 1. The summary of a drill of 100,000 lines, with and without focusing. It was worked out once by two programs that
#    have nothing in common but the rules, and both had these lines.
# 2. A log of 600 MB, piped: 33 million clock lines and 4.8 million events of names that no model declares, each of
#    another name, between the two events of a recognition and those of a second. Lines are dropped once they are
#    read, and undeclared names aren't kept, so that a quarter of the log's bytes of address space is far more than is
#    needed. Each recognition is told once, at its first mark.
# 3. A mark that brings 160,000 recognitions, each of which emits an entry that a chronicle above recognises: what is
#    done once for each recognition of a mark needs no room on the stack, which by default is 8 MB.
program=${1:-$(dirname "$0")/../../crates/crs/out/crs}
[ -x "$program" ] || { echo "size: no program at $program" >&2; exit 2; }
program=$(realpath "$program")
status=0

fail() {
    echo "size: $1" >&2
    status=1
}

drilled() {
    local wanted=$1 found
    shift
    found=$("$program" drill "$@")
    [ "$found" = "$wanted" ] || fail "'drill $*' prints '$found' in place of '$wanted'"
}
drilled 'summary entries 100000 refused 0 recognitions 8488 kept 2 peak 94' 7 100000
drilled 'summary entries 100000 refused 0 recognitions 8488 kept 2 peak 18' --focus 7 100000

folder=$(mktemp -d)
trap 'rm -r "$folder"' EXIT
printf 'message a 0\nmessage b 0\nchronicle c {\n  event(a, t1)\n  event(b, t2)\n  t2 - t1 in [1, 5]\n}\n' >"$folder/models"
long_log() {
    printf '10 a\n12 b\n'
    yes 'clock 13' | head -n 33000000
    seq -f '20 a_name_that_no_model_declares_and_no_line_had_before_%08.0f' 4800000
    printf '14 b\nclock 15\n'
}
long_log | (
    ulimit -v 150000
    timeout 120 "$program" run --summary "$folder/models" /dev/stdin >"$folder/output"
)
ended=$?
[ $ended -eq 0 ] || fail "a log of 600 MB ends with status $ended under a limit of 150 MB of address space"
printf 'c at 13 t1=10 t2=12\nc at 15 t1=10 t2=14\nsummary entries 3 refused 0 recognitions 2 kept 2 peak 2\n' |
    cmp -s - "$folder/output" || fail "a log of 600 MB prints '$(head -c 300 "$folder/output")'"

printf 'message a 0\nderived pair 0\nchronicle c {\n  event(a, t1)\n  event(a, t2)\n  t2 - t1 in [0, 10]\n  emit(pair, t1)\n}\nchronicle d {\n  event(pair, t1)\n}\n' >"$folder/models"
(yes '5 a' | head -n 400; printf 'clock 30\n') >"$folder/log"
(
    ulimit -s 8192
    "$program" run --summary "$folder/models" "$folder/log" >"$folder/output"
)
ended=$?
[ $ended -eq 0 ] || fail "a mark with 319,200 recognitions ends with status $ended"
[ "$(cut -d ' ' -f 1 "$folder/output" | sort | uniq -c | tr -s ' \n' ' ')" = ' 159600 c 159600 d 1 summary ' ] ||
    fail "a mark with 319,200 recognitions prints other lines"

exit $status
