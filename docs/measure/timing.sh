# What docs/measure.sh and docs/plot.sh share: the program, a temporary folder, and how a run is measured.
docs=$(cd "$(dirname "${BASH_SOURCE[0]}")/.." && pwd)
crs=${CRS:-$docs/../crates/crs/out/crs}
crs=$(realpath -m "$crs")
repeat=${REPEAT:-3}
limit=${LIMIT:-120}
[ -x "$crs" ] || { echo "no program at $crs: give one as CRS=/path/to/crs" >&2; exit 2; }
[ -x /usr/bin/time ] || { echo "wanted: GNU time, the package 'time' of Debian" >&2; exit 2; }
work=$(mktemp -d)
trap 'rm -r "$work"' EXIT
trap 'exit 1' INT TERM
cd "$work" || exit 1
empty=0

# timed TIMES COMMAND..: the least processor seconds of so many runs in `cpu`, the greatest resident kB in `kb`,
# and standard output of the last run in the file `out`. After `limit` seconds a run is ended, and `cpu` is empty.
timed() {
    local times=$1 i seconds k TIMEFORMAT='%3U %3S'
    shift
    cpu= kb=0
    for ((i = 0; i < times; i++)); do
        { time timeout "$limit" /usr/bin/time -q -f '%M' -o kb "$@" >out 2>err; echo $? >status; } 2>clock
        [ "$(cat status)" -ge 124 ] && { cpu=; return; }
        seconds=$(awk -v e="$empty" '{ s = $1 + $2 - e; print (s > 0.001 ? s : 0.001) }' clock)
        k=$(tail -n 1 kb)
        [ "$k" -gt "$kb" ] && kb=$k
        [ -z "$cpu" ] && cpu=$seconds
        cpu=$(awk -v a="$cpu" -v b="$seconds" 'BEGIN { print (a < b ? a : b) }')
    done
}

# what it takes to start a process and to measure it is taken off each time
timed 5 true
empty=$cpu

# a number of the summary line of the last run: summed NAME
summed() { sed -n "s/^summary .*\b$1 \([0-9]*\).*/\1/p" out; }
calc() { awk "BEGIN { printf \"$1\", ($2) }"; }
