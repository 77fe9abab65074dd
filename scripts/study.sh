#!/usr/bin/env bash
# shellcheck source=/dev/null
# Searches every instance of a folder (NAME.json), and writes OUT.csv with a row for each: seed, seconds, attempts, cost,
# lower bound, gap in percent; with --best also the best known cost and the difference.
#   scripts/study.sh [--slurm] [--best FILE] FOLDER OUT.csv SECONDS [SEED]
# FILE has a line 'NAME COST' for each. Instances are searched one after the other, each by all processors; JOBS=4 in the
# environment takes four at a time. With --slurm each is a task of an array, and OUT.csv is put together when the script
# is asked again. What stands in OUT.csv.rows isn't made again. PLANNER names the program.
set -euo pipefail
export LC_ALL=C
fail() { echo "study.sh: $*" >&2; exit 2; }

row() { # the name of an instance
  local from cost bound status=0 plan=$rows/$1.json
  from=$(date +%s)
  "$planner" improve "$folder/$1.json" "$plan" --seconds "$seconds" --seed "$seed" --workers "$workers" >"$rows/$1.out" 2>&1 || status=$?
  [ "$status" -eq 0 ] || [ "$status" -eq 5 ] || { tail -n 1 "$rows/$1.out" >&2 && return 1; }
  cost=$([ "$status" -eq 5 ] || "$planner" check "$folder/$1.json" "$plan" | sed -n 's/^cost //p')
  bound=$("$planner" bound "$folder/$1.json" --workers "$workers" | sed -n 's/^no feasible timetable costs less than //p') || true
  echo "$1,$seed,$(($(date +%s) - from)),$(sed -n 's/^round [^:]*: \([0-9]*\) attempts.*/\1/p' "$rows/$1.out" | tail -n 1),$cost,$bound,$(
    awk -v c="$cost" -v b="$bound" 'BEGIN { if (c != "" && b > 0) printf "%.1f", 100 * (c - b) / b }')" >"$rows/$1.new"
  mv -- "$rows/$1.new" "$rows/$1.row"
}

if [ "${1:-}" = --row ]; then . "$2/settings" && row "$(sed -n "${SLURM_ARRAY_TASK_ID}p" "$2/names")" && exit; fi
slurm='' best=/dev/null
while :; do case ${1:-} in --slurm) slurm=1 && shift ;; --best) best=$2 && shift 2 ;; *) break ;; esac; done
[ $# -ge 3 ] || { sed -n '3,9s/^# //p' "$0" && exit 2; }
[[ $3 =~ ^[1-9][0-9]{0,5}$ && ${4:-1} =~ ^[0-9]{1,18}$ ]] || fail "SECONDS and SEED are whole numbers"
top=$(cd -- "$(dirname -- "$0")/.." && pwd)
planner=$(realpath -m -- "${PLANNER:-$top/crates/ih_planner/out/ih_planner}")
[ -x "$planner" ] || fail "no program at $planner"
mkdir -p -- "$2.rows"
folder=$(realpath -- "$1") rows=$(realpath -- "$2.rows") seconds=$3 seed=${4:-1} jobs=${JOBS:-1}
workers=$(($(nproc) / jobs > 0 ? $(nproc) / jobs : 1))
names=$(cd -- "$folder" && for f in *.json; do [ ! -e "$f" ] || [ -e "$rows/${f%.json}.row" ] || echo "${f%.json}"; done)
if [ -n "$names" ] && [ -n "$slurm" ]; then
  # shellcheck disable=SC2016
  workers='${SLURM_CPUS_PER_TASK:-1}' && cp -- "$0" "$rows/study.sh" && echo "$names" >"$rows/names"
  declare -p planner folder rows seconds seed | sed 's/^declare/declare -g/' >"$rows/settings" && echo "workers=$workers" >>"$rows/settings"
  sbatch --array="1-$(wc -l <"$rows/names")" --output=/dev/null --wrap="exec bash '$rows/study.sh' --row '$rows'"
elif [ -n "$names" ]; then
  export -f row && export planner folder rows seconds seed workers
  echo "$names" | parallel --plain --jobs "$jobs" row '{}'
fi
{
  echo "name,seed,seconds,attempts,cost,bound,gap,best,difference"
  { cat -- "$rows"/*.row 2>/dev/null || true; } | awk -F, -v OFS=, -v known="$best" '
    BEGIN { while ((getline line <known) > 0) { split(line, w, " "); best[w[1]] = w[2] } }
    { print $0, best[$1], ($5 != "" && best[$1] > 0) ? sprintf("%.1f", 100 * ($5 - best[$1]) / best[$1]) : "" }'
} >"$2.new"
mv -- "$2.new" "$2"
