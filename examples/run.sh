#!/usr/bin/env bash
# Builds both programs if they aren't built yet or code is newer, shows a search that needs no file, searches the ward
# of this folder, shows what was written, checks it, shows how a call ends whose text can't be put out, makes its page,
# searches on from it while the first two days stay as they are, and makes a better plan with the planners' program. The
# first build proves every crate below the programs, which takes a while; later calls start at once.
#   examples/run.sh [FOLDER]     FOLDER takes the files
set -euo pipefail
top=$(cd "$(dirname "$0")/.." && pwd)
work=${1:-$(mktemp -d)}
mkdir -p "$work"
ward=$top/examples/ward.json
options=(--workers 2 --moves 3000 --hard 1000)
words=(solve "$ward" "$work/solution.json" "$work/journal.txt" --seed 1 --heat 200 "${options[@]}")
program=$top/crates/ih_main/out/ih_main
planner=$top/crates/ih_planner/out/ih_planner
wanted() {
  command -v rt >/dev/null || { echo "run.sh: Rattle's toolchain is wanted ('rt' on the path)" >&2; exit 2; }
}
# Whether the program is there, and no code is newer.
is_built() {
  [ -x "$1" ] && [ -z "$(find "$top/crates" -name '*.rt' -newer "$1" -print -quit)" ]
}
if is_built "$program"; then
  "$program" demo 7
else
  wanted
  (cd "$top/crates/ih_main" && rt run -- demo 7)
fi
if ! is_built "$planner"; then
  wanted
  (cd "$top/crates/ih_planner" && rt run -- --help)
fi
echo
echo "The ward of examples/:"
"$program" "${words[@]}"
echo
echo "The journal, $work/journal.txt, begins:"
head -n 4 "$work/journal.txt"
echo
echo "The solution, $work/solution.json, begins:"
head -c 400 "$work/solution.json"
echo
echo
echo "Checked, it ends with:"
"$program" check "$ward" "$work/solution.json" | tail -n 1
status=0
"$program" check "$ward" "$work/solution.json" >/dev/full || status=$?
[ "$status" -eq 6 ] || { echo "run.sh: $status, and not 6, is the status of a check onto a full device" >&2; exit 1; }
echo "Onto a full device, it ends with status 6."
echo
"$planner" view "$ward" "$work/solution.json" "$work/page.html"
echo "Its page is $work/page.html"
echo
echo "Replayed from its journal:"
"$program" replay "$ward" "$work/journal.txt" "$work/again.json" >"$work/replayed.txt"
head -n 1 "$work/replayed.txt"
cmp "$work/solution.json" "$work/again.json"
echo
echo "Searched on from there, with days 0 and 1 as they are:"
"$program" solve "$ward" "$work/better.json" "$work/journal2.txt" --seed 2 --heat 0 "${options[@]}" \
  --start "$work/solution.json" --freeze 2 | sed -n '1p;$p'
echo
echo "Made better by the planners' program, with days 0 and 1 as they are:"
"$planner" improve "$ward" "$work/best.json" --seed 1 --workers 2 --attempts 50000 --rounds 4 \
  --start "$work/solution.json" --freeze 2 --keep 0 | sed -n '1,4p;$p'
