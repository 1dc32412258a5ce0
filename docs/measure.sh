#!/usr/bin/env bash
# Makes the figures of docs/PERFORMANCE.md anew, and the plot, and puts them into the page.
#
# usage: CRS=/path/to/crs docs/measure.sh [TABLE ..]     the tables to make, all where none is named:
#            build costs growth instructions alive focus chronicles hazards symbols peers colliding audits claims plot
#
# Environment:
#   CRS       the program; crates/crs/out/crs where none is given
#   BUILD     words that tell which build it is
#   OTHER     a plain recogniser, or an older build, that has the same commands: ratios to it are given too
#   N         events of the tables 'alive', 'chronicles' and 'hazards' (10000)
#   FOCUS_N   events of the table 'focus' (100000)
#   LINES     the greatest number of events in 'growth', and the number in 'costs' and 'symbols' (1000000)
#   BUDGET    'growth' doubles a log until a run takes so many seconds (2)
#   PEER_N    the lengths of the log in 'peers' (10000 100000)
#   REPEAT    the best of so many runs counts (3)
#   LIMIT     a run is ended after so many seconds (120)
#   PAGE      the page; `-` writes the tables to standard output alone
#
# Debian packages: time, python3, valgrind, gnuplot-nox; for the peers sqlite3, clips, sec.
. "$(dirname "$0")/measure/timing.sh"
n=${N:-10000}
lines=${LINES:-1000000}
focus_n=${FOCUS_N:-100000}
budget=${BUDGET:-2}
page=${PAGE:-$docs/PERFORMANCE.md}
case "$page" in - | /*) ;; *) page=$OLDPWD/$page ;; esac
other=${OTHER:+$(cd "$OLDPWD" && realpath "$OTHER")}

make() { python3 "$docs/measure/loads.py" "$1" "$2" . "${3:-}" 2>/dev/null || python3 "$docs/measure/loads.py" "$1" "$2" .; }
# run OPTION.., and whether the last run knew its options
run() { timed "$repeat" "$crs" run "$@" --summary models log; }
was_run() { [ -n "$cpu" ] && [ -n "$(summed peak)" ]; }
mb() { calc %.1f "$kb / 1024"; }
seconds() { if [ -n "$cpu" ]; then calc %.3f "$cpu"; else echo "over $limit"; fi; }
# a number with commas, and with three digits that count
grouped() { echo "$1" | sed -E ':a; s/^([0-9]+)([0-9]{3})($|[,.])/\1,\2\3/; ta'; }
rounded() {
    grouped "$(awk -v x="$1" 'BEGIN {
        for (unit = 1; x >= 1000 * unit; ) unit *= 10
        if (x >= 100) printf "%d", unit * int(x / unit + 0.5); else printf "%.3g", x }')"
}
# of the last run: each COUNT UNIT, where the unit is that many to a second
each() { if [ -n "$cpu" ]; then rounded "$(calc %.6f "$cpu * $2 / $1")"; else echo "more"; fi; }
# the lesser of two numbers
least() { awk -v a="$1" -v b="$2" 'BEGIN { print (a < b ? a : b) }'; }
# the ratio of the last run to one of OTHER over the same files, with the same OPTION..; the two run in turn, and what
# takes less than 10 ms is taken as that
to_other() {
    local mine=$cpu ours=$kb best=$cpu theirs= i
    [ -n "$other" ] && [ -n "$mine" ] || { echo "-"; return; }
    for ((i = 0; i < repeat; i++)); do
        timed 1 "$crs" run "$@" --summary models log
        [ -n "$cpu" ] && best=$(least "$best" "$cpu")
        timed 1 "$other" run "$@" --summary models log
        was_run || { theirs=; break; }
        theirs=$(least "${theirs:-$cpu}" "$cpu")
    done
    if [ -n "$theirs" ]; then
        awk -v a="$best" -v b="$theirs" 'BEGIN {
            few = b < 0.01
            if (few) b = 0.01
            if (few && a <= b) printf "-"; else printf (a < 10 * b ? "%s%.1f" : "%s%d"), (few ? "over " : ""), a / b }'
    else
        echo "-"
    fi
    cpu=$mine kb=$ours
}

build() {
    local model
    model=$(sed -n 's/^model name[^:]*: //p' /proc/cpuinfo | head -n 1)
    echo "Build: ${BUILD:-the program at ${CRS:-crates/crs/out/crs}}. Date: $(date +%F). Machine: ${model:-unknown}, $(nproc) processors."
}

cost() { # WORDS COUNT KIND N [P]
    make "$3" "$4" "${5:-}"
    run
    echo "| $1 | $(grouped "$2") | $(each "$2" 1e9) | $(mb) | $(to_other) |"
}
costs() {
    local first
    echo "| What | How many | Nanoseconds each | MB | Times the plain recogniser |"
    echo "|---|---|---|---|---|"
    cost "an event of an undeclared name" "$lines" undeclared "$lines"
    cost "a declared event that no pattern names, with a sixteenth of a clock" "$lines" declared "$lines"
    cost "a refused line" "$lines" refused "$lines"
    cost "a clock, nothing alive" "$lines" clocks "$lines"
    cost "a clock, 1,000 instances alive" 100000 clocks 100000 1000
    cost "an event that is recognised by itself, line of output included" 100000 single 100000
    cost "an event, with some 500 instances alive that don't want it" "$n" alive "$n" 1000
    make alive 5000 1000000000
    run
    first=$kb
    make alive 10000 1000000000
    run
    echo "| an instance that waits, with its event: bytes | 2,500 | $(calc %.0f "($kb - $first) * 1024 / 2500") bytes | | |"
}

growth() {
    local kind p k half half_kb row
    echo "| Log | Events | Seconds | Microseconds an event | Times half the log | MB | MB at half | Times the plain recogniser |"
    echo "|---|---|---|---|---|---|---|---|"
    for kind in undeclared declared drill units late count hold single burst alive; do
        p=
        [ $kind = alive ] && p=1000000000
        for ((k = 1000; ; k *= 2)); do
            make $kind $k $p
            timed 1 "$crs" run --summary models log
            [ -z "$cpu" ] && break
            [ "$(calc %d "($cpu >= $budget || 2 * $k > $lines)")" = 1 ] && break
        done
        make $kind $((k / 2)) $p
        run
        half=$cpu half_kb=$kb
        make $kind $k $p
        run
        row="| $kind | $(grouped $k) | $(seconds) | $(each $k 1e6) | $([ -n "$cpu" ] && calc %.1f "$cpu / $half")"
        echo "$row | $(mb) | $(calc %.1f "$half_kb / 1024") | $(to_other) |"
    done
}

# the instructions of a run, the same at each run, whatever else the machine does
counted() { valgrind --tool=callgrind --callgrind-out-file=/dev/null "$@" 2>&1 >/dev/null | sed -n 's/.*Collected : //p'; }
instructions() {
    local kind p mine ratio
    echo "| Log of 20,000 events | Instructions an event | Times the plain recogniser |"
    echo "|---|---|---|"
    command -v valgrind >/dev/null || { echo "valgrind isn't installed, and left out" >&2; return; }
    for kind in undeclared declared drill units late count hold single burst alive; do
        p=
        [ $kind = alive ] && p=1000000000
        make $kind 20000 $p
        mine=$(counted "$crs" run models log)
        ratio=-
        [ -n "$other" ] && ratio=$(calc %.2f "$mine / $(counted "$other" run models log)")
        echo "| $kind | $(rounded "$(calc %.6f "$mine / 20000")") | $ratio |"
    done
}

alive() {
    local p
    echo "| Instances alive, at most | Microseconds an event | MB | Times the plain recogniser |"
    echo "|---|---|---|---|"
    for p in 10 100 1000 "$n"; do
        make alive "$n" "$p"
        run
        echo "| $(grouped "$(summed peak)") | $(each "$n" 1e6) | $(mb) | $(to_other) |"
    done
}

focus() {
    local kind option row
    echo "| Log of $(grouped "$focus_n") events | Command | Microseconds an event | MB | Instances alive, at most | Recognitions | Times the plain recogniser |"
    echo "|---|---|---|---|---|---|---|"
    for kind in rare drill; do
        make $kind "$focus_n"
        rm -f plainly
        for option in '' --focus; do
            run $option
            row="| $kind | \`run${option:+ $option}\` |"
            [ -n "$cpu" ] || { echo "$row over $limit s | | | | |"; continue; }
            was_run || { echo "crs doesn't know 'run $option': no row of it" >&2; continue; }
            row+=" $(each "$focus_n" 1e6) | $(mb) | $(grouped "$(summed peak)") | $(grouped "$(summed recognitions)")"
            grep -v '^summary ' out >told
            if [ ! -f plainly ]; then mv told plainly; elif cmp -s told plainly; then row+=", the same"; else row+=", others"; fi
            echo "$row | $(to_other $option) |"
        done
    done
}

chronicles() {
    local p own own_other
    echo "| Chronicles | Names of their own: microseconds an event | Times the plain recogniser | All of the same two names: microseconds an event | Recognitions an event | Times the plain recogniser |"
    echo "|---|---|---|---|---|---|"
    for p in 1 2 4 8 16 32 64; do
        make own "$n" $p
        run
        own=$(each "$n" 1e6)
        own_other=$(to_other)
        make same "$n" $p
        run
        echo "| $p | $own | $own_other | $(each "$n" 1e6) | $(calc %.1f "$(summed recognitions) / $n") | $(to_other) |"
    done
}

hazards() {
    local kind option events half row
    echo "| Load | Events | Seconds | Times half of it | Times the plain recogniser |"
    echo "|---|---|---|---|---|"
    for kind in site least ahead second back again levels; do
        option=
        [ $kind = levels ] && option=--focus
        half=
        for events in $((n / 2)) "$n"; do
            make $kind "$events"
            run $option
            row="| $kind | $(grouped "$events") | $(seconds) | ${half:+$(calc %.1f "${cpu:-$limit} / $half")}"
            half=$cpu
        done
        echo "$row | $(to_other $option) |"
    done
}

symbols() {
    local p
    echo "| Symbols in the log | Nanoseconds an event | MB | Times the plain recogniser |"
    echo "|---|---|---|---|"
    for p in 64 10000 100000 1000000; do
        [ "$p" -le "$lines" ] || break
        make declared "$lines" $p
        run
        echo "| $(grouped $p) | $(each "$lines" 1e9) | $(mb) | $(to_other) |"
    done
}

# the recognitions of the last run, without their marks and the dates that not all programs tell
found() { grep -E '^(chain|quiet) ' out | sed -E 's/ at [a-z0-9]+//; s/ t[1-6]=[0-9]+//g' | LC_ALL=C sort; }
peer() { # NAME LENGTH
    local count
    [ -n "$cpu" ] || { echo "| $1 | $(grouped "$2") | over $limit | | | |"; return; }
    found >theirs
    count=$(grouped "$(wc -l <theirs)")
    [ "$1" = crs ] && mv theirs ours
    [ "$1" = crs ] || [ ! -f ours ] || { cmp -s theirs ours && count="$count, the same" || count="$count, others"; }
    echo "| $1 | $(grouped "$2") | $(calc %.3f "$cpu") | $(each "$2" 1e6) | $(mb) | $count |"
}
peers() {
    local k tool
    echo "| Program | Events | Seconds | Microseconds an event | MB | Recognitions |"
    echo "|---|---|---|---|---|---|"
    for k in ${PEER_N:-10000 100000}; do
        make drill "$k"
        timed "$repeat" "$crs" run models log
        peer crs "$k"
        if [ -n "$other" ]; then
            timed "$repeat" "$other" run models log
            peer "the plain recogniser" "$k"
        fi
        for tool in sqlite clips sec; do
            command -v ${tool/sqlite/sqlite3} >/dev/null || { echo "$tool isn't installed, and left out" >&2; continue; }
            timed 1 "$docs/measure/$tool" "$work/log"
            peer "$(echo $tool | sed 's/sqlite/SQLite/; s/clips/CLIPS/; s/sec/SEC/')" "$k"
        done
    done
}

colliding() {
    local which words
    echo "| 50,000 events, each of a new symbol | Seconds | MB |"
    echo "|---|---|---|"
    for which in random 1; do
        python3 "$docs/measure/colliding.py" $which 50000 .
        timed 9 "$crs" run --summary models log
        [ $which = 1 ] && words="symbols that collide under the seed 1" || words="random symbols"
        echo "| $words | $(seconds) | $(mb) |"
    done
    echo
    echo "| 16,000 values in a models text, read with the seed 0 | Seconds |"
    echo "|---|---|"
    for which in random 0; do
        python3 "$docs/measure/colliding.py" values $which 16000 >models
        timed 1 "$crs" model models
        [ $which = 0 ] && words="symbols that collide under it" || words="random symbols"
        echo "| $words | $(seconds) |"
    done
}

# audit: the last output, which was saved, checked by the files that it was made of
audit() { timed "$repeat" "$crs" audit models log output; }
audits() {
    local kind events run_cpu half row
    echo "| Log | Events | Recognitions | Seconds of \`run --cite\` | Seconds of \`audit\` | Times the run | Times half the log | MB |"
    echo "|---|---|---|---|---|---|---|---|"
    for kind in fifth drill single count hold; do
        half=
        for events in 50000 100000; do
            make $kind $events
            timed "$repeat" "$crs" run --cite models log
            run_cpu=$cpu
            mv out output
            audit
            grep -q '^audit ok ' out || { echo "$kind: $(cat out)" >&2; continue; }
            row="| $kind | $(grouped $events) | $(grouped "$(grep -c ' cites ' output)") | $(calc %.3f "$run_cpu") | $(seconds)"
            row+=" | $(calc %.1f "$cpu / $run_cpu") | ${half:+$(calc %.1f "$cpu / ${half:-1}")} | $(mb) |"
            half=$cpu
        done
        echo "$row"
    done
}

claims() {
    local kind mb half row
    echo "| Output | MB of it | Claims | Seconds of \`audit\` | Times half of it | MB of memory |"
    echo "|---|---|---|---|---|---|"
    for kind in pairs wide single marks points refused empty log walks; do
        half=
        for mb in 16 32; do
            case $kind in points) mb=$((mb / 16)) ;; walks) mb=$(calc %.2f "$mb / 64") ;; esac
            python3 "$docs/measure/claims.py" $kind $mb .
            audit
            grep -q '^audit ok ' out || { echo "$kind: $(cat out)" >&2; continue; }
            row="| $kind | $mb | $(grouped "$(sed 's/audit ok //' out)") | $(seconds) | ${half:+$(calc %.1f "$cpu / ${half:-1}")} | $(mb) |"
            half=$cpu
        done
        echo "$row"
    done
}

plot() {
    CRS=$crs OTHER=$other "$docs/plot.sh" >&2
    echo "![Time and memory of runs over the logs of drills, against the number of events](performance.svg)"
}

# put NAME: the file `table` into the page, between the two comments of that name
put() {
    if [ "$page" = - ]; then
        echo "## $1"
        cat table
        echo
        return
    fi
    awk -v name="$1" '
        $0 == "<!-- " name " -->" { print; print ""; while ((getline line < "table") > 0) print line; print ""; skip = 1 }
        $0 == "<!-- end of " name " -->" { skip = 0 }
        !skip' "$page" >"$work/page" && cat "$work/page" >"$page"
}

all='build costs growth instructions alive focus chronicles hazards symbols peers colliding audits claims plot'
for name in "$@"; do
    case " $all " in *" $name "*) ;; *) echo "no table $name: $all" >&2; exit 2 ;; esac
done
for name in ${*:-$all}; do
    echo "measuring: $name" >&2
    "$name" >table
    put "$name"
done
