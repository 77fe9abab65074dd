#!/usr/bin/env bash
# Searches on machines that ssh reaches without a password, each with its own seed. The cheapest plan accepted here counts.
#   scripts/hosts.sh INSTANCE FOLDER SECONDS HOST ..
# The program is sent along. FOLDER/best.json is replaced only by a cheaper feasible plan. A host that fails is named with
# its last line, and the others count. PLANNER names the program.
set -euo pipefail && export LC_ALL=C
fail() { echo "hosts.sh: $*" >&2; exit 2; }
[ $# -ge 4 ] || { sed -n '2,5s/^# //p' "$0" && exit 2; }
[[ $3 =~ ^[1-9][0-9]{0,5}$ ]] || fail "SECONDS is a whole number above 0"
command -v parallel >/dev/null || fail "GNU parallel is wanted"
top=$(cd -- "$(dirname -- "$0")/.." && pwd)
planner=$(realpath -m -- "${PLANNER:-$top/crates/ih_planner/out/ih_planner}")
[ -x "$planner" ] || fail "no program at $planner"
[ -r "$1" ] || fail "cannot read $1"
export seconds=$3 number=0
mkdir -p -- "$2/hosts" && { [ -e "$2/instance.json" ] || cp -- "$1" "$2/instance.json"; }
cmp -s -- "$1" "$2/instance.json" || fail "$2 has searches of another instance"
cp -- "$planner" "$2/hosts/ih_planner" && cd -- "$2" && rm -f -- hosts/*.json hosts/*.out && tar -czf hosts/sent.tgz instance.json -C hosts ih_planner

# One host's search, with its number for the seed: the plan comes back on the output, its lines on the error output.
search() {
  local told="./ih_planner improve instance.json plan.json --seconds $seconds --seed $1 >&2; s=\$?; cat plan.json"
  ssh -o BatchMode=yes -o ConnectTimeout=10 -- "$2" "sh -c 'd=\$(mktemp -d) && cd \$d && tar xzf - && { $told; }; cd /; rm -rf \$d; exit \$s'" \
    <hosts/sent.tgz >"hosts/$1.json" 2>"hosts/$1.out"
}
export -f search
parallel --plain --jobs 0 --timeout $((seconds + seconds / 10 + 60)) search '{#}' '{}' ::: "${@:4}" || true
for host in "${@:4}"; do
  number=$((number + 1)) && plan=hosts/$number.json
  if cost=$("$planner" check instance.json "$plan" 2>/dev/null | sed -n 's/^cost //p'); then
    echo "$host: cost $cost"
    if [ ! -s best.cost ] || [ "$cost" -lt "$(<best.cost)" ]; then
      cp -- "$plan" best.new && mv -- best.new best.json && echo "$cost" >best.cost
    fi
  else
    echo "$host: no plan: $({ cat "hosts/$number.out" && [ ! -s "$plan" ] || "$planner" check instance.json "$plan" 2>&1 || true; } |
      tail -n 1 | tr -d '\000-\037\177' | grep . || echo nothing came back)"
  fi
done
rm -f -- hosts/ih_planner hosts/sent.tgz && echo "best cost $(cat best.cost 2>/dev/null || echo none)"
