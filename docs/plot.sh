#!/usr/bin/env bash
# Plots time and memory of runs over the logs of drills against the number of events, as docs/performance.svg.
#
# usage: CRS=/path/to/crs docs/plot.sh [OUT.svg]
#
# Environment:
#   CRS       the program; crates/crs/out/crs where none is given
#   OTHER     a plain recogniser, or an older build, that has the same commands: it is plotted too
#   LONGEST   the longest log, in events (1000000)
#   REPEAT    the best of so many runs counts (3); of logs of 200,000 events and more one run
#
# Debian packages: time, python3, gnuplot-nox.
. "$(dirname "$0")/measure/timing.sh"
target=${1:-$docs/performance.svg}
case "$target" in /*) ;; *) target=$OLDPWD/$target ;; esac
other=${OTHER:+$(cd "$OLDPWD" && realpath "$OTHER")}
longest=${LONGEST:-1000000}
command -v gnuplot >/dev/null || { echo "wanted: gnuplot, the package 'gnuplot-nox' of Debian" >&2; exit 2; }

for ((tens = 1000; tens <= longest; tens *= 10)); do
    for n in $tens $((2 * tens)) $((5 * tens)); do
        [ "$n" -le "$longest" ] || break
        python3 "$docs/measure/loads.py" drill "$n" .
        for program in "$crs" $other; do
            timed $((n < 200000 ? repeat : 1)) "$program" run --summary models log
            [ -n "$cpu" ] || continue
            if [ "$program" = "$crs" ]; then echo "$n $cpu $kb" >>points; else echo "$n $cpu $kb" >>others; fi
        done
    done
done

more='' more_kb=''
if [ -s others ]; then
    line="with linespoints lw 2 pt 7 ps 0.6 lc rgb '#ff7f0e' title 'plain recogniser'"
    more=", 'others' using 1:2 $line"
    more_kb=", 'others' using 1:(\$3 / 1024) $line"
fi
slope=$(tail -n 1 points | awk '{ print $2 / $1 }')
gnuplot <<PLOT
set terminal svg size 900,400 font 'sans-serif,13' background '#ffffff'
set output 'plot.svg'
set multiplot layout 1,2 margins 0.08,0.98,0.18,0.88 spacing 0.10
set grid lc rgb '#dddddd'
set border 3
set tics nomirror out
set logscale x
set format x '%.0s%c'
set xrange [800:*]
set xlabel 'events'
set key top left Left reverse samplen 2
set title 'processor seconds'
set logscale y
set format y '%g'
plot 'points' using 1:2 with linespoints lw 2 pt 7 ps 0.6 lc rgb '#1f77b4' title 'crs', \
     x * $slope with lines dt 2 lc rgb '#888888' title 'in proportion to the events'$more
set title 'most resident memory, MB'
unset logscale y
set yrange [0:*]
set key bottom right Left reverse samplen 2
plot 'points' using 1:(\$3 / 1024) with linespoints lw 2 pt 7 ps 0.6 lc rgb '#1f77b4' title 'crs'$more_kb
unset multiplot
PLOT
[ -s plot.svg ] || exit 1
cp plot.svg "$target"
echo "$target: $(wc -l <points) logs, the longest of $(tail -n 1 points | awk '{ print $1 " events in " $2 " s, " $3 " kB" }')"
