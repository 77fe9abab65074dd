#!/usr/bin/env bash
# shellcheck source=/dev/null
# Searches side by side on a Slurm cluster, each with a seed of its own. The cheapest plan that `check` accepts counts.
#   scripts/slurm.sh INSTANCE FOLDER TASKS SECONDS [OPTIONS OF SBATCH ..]
# All nodes see FOLDER. FOLDER/best.json is replaced only by a cheaper feasible plan. A search that was lost is made once
# more. Asked again, the script says how far the searches are. PLANNER names the program, if it isn't that of this folder.
set -euo pipefail
export LC_ALL=C
fail() { echo "slurm.sh: $*" >&2; exit 2; }

# One search of the array.
task() {
  local k=$SLURM_ARRAY_TASK_ID status=0
  ./ih_planner improve instance.json "plans/$k.json" --seconds "$seconds" --seed "$k" \
    --workers "${SLURM_CPUS_PER_TASK:-1}" >"plans/$k.out" 2>&1 || status=$?
  case $status in 0 | 5) echo "$status" >"plans/$k.over" ;; *) exit "$status" ;; esac
}

# Which searches aren't over, as 1,4,7.
lost() { for k in $(seq "$tasks"); do [ -e "plans/$k.over" ] || echo "$k"; done | paste -sd,; }

# Hands in the searches with these numbers, and behind them the job that takes the best of their plans.
hand_in() {
  local array
  array=$(sbatch --parsable "${options[@]}" --no-requeue -J "$name" -a "$1" -o /dev/null --wrap="exec bash ./slurm.sh --task")
  sbatch "${options[@]}" -c 1 --no-requeue -J "$name" -d "afterany:$array" -o step.out --wrap="exec bash ./slurm.sh --step $2" >/dev/null
}

# Takes the cheapest plan that is feasible, if it is cheaper than the best, and hands in what was lost.
step() {
  local plan cost
  for plan in plans/*.json; do
    if [ -e "$plan" ] && cost=$(./ih_planner check instance.json "$plan" 2>/dev/null | sed -n 's/^cost //p'); then
      if [ ! -s best.cost ] || [ "$cost" -lt "$(<best.cost)" ]; then
        cp -- "$plan" best.new && mv -- best.new best.json && echo "$cost" >best.cost
      fi
    fi
  done
  if [ "$1" -gt 0 ] && [ -n "$(lost)" ]; then hand_in "$(lost)" $(($1 - 1)); fi
}

case ${1:-} in --task | --step) . ./settings && "${1#--}" "${@:2}" && exit ;; esac
[ $# -ge 4 ] || { sed -n '3,6s/^# //p' "$0" && exit 2; }
[[ $3 =~ ^[1-9][0-9]{0,3}$ && $4 =~ ^[1-9][0-9]{0,5}$ ]] || fail "TASKS and SECONDS are whole numbers above 0"
top=$(cd -- "$(dirname -- "$0")/.." && pwd)
planner=$(realpath -m -- "${PLANNER:-$top/crates/ih_planner/out/ih_planner}")
[ -x "$planner" ] || fail "no program at $planner"
[ -r "$1" ] || fail "cannot read $1"
mkdir -p -- "$2/plans" && { [ -e "$2/instance.json" ] || cp -- "$1" "$2/instance.json"; }
cmp -s -- "$1" "$2/instance.json" || fail "$2 has searches of another instance"
if [ ! -e "$2/settings" ]; then
  cp -- "$planner" "$2/ih_planner" && cp -- "$0" "$2/slurm.sh"
  tasks=$3 seconds=$4 options=("${@:5}") && cd -- "$2" && name=ih.$(pwd | cksum | tr -d ' ')
  declare -p tasks seconds options name | sed 's/^declare/declare -g/' >settings
  hand_in "1-$tasks" 1 && echo "$tasks searches of $seconds s are handed in" && exit
fi
cd -- "$2" && . ./settings
jobs=$(squeue -h --name="$name" --user="$(id -un)" -o %i | wc -l) over=$(find plans -name '*.over' | wc -l)
if [ "$jobs" -eq 0 ] && [ "$over" -lt "$tasks" ]; then hand_in "$(lost)" 1 && echo "the lost searches are handed in again"; fi
echo "$over of $tasks searches are over; best cost $(cat best.cost 2>/dev/null || echo none)"
