#!/usr/bin/env bash
# Draws what the lines of `improve` say, cost by attempts, as a picture. gnuplot is wanted (Debian's package 'gnuplot').
#   $planner improve instance.json plan.json | scripts/plot.sh PICTURE.png
set -euo pipefail
[ $# -eq 1 ] || { echo "plot: which picture? scripts/plot.sh PICTURE.png" >&2; exit 2; }
command -v gnuplot >/dev/null || { echo "plot: gnuplot is wanted" >&2; exit 2; }
rounds=$(sed -n 's/^round [^:]*: \([0-9]*\) attempts, cost \([0-9]*\).*/\1 \2/p')
[ -n "$rounds" ] || { echo "plot: no line has a cost" >&2; exit 1; }
gnuplot -e "set terminal png size 900,500; set output '$1'; set xlabel 'attempts'; set ylabel 'cost'
  plot '< cat' with steps notitle" <<<"$rounds"
