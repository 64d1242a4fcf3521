#!/usr/bin/env bash
# How long the driver takes to read each plan: bench/read_plans.sh, from the repository's root, after the driver was built (`bench/build.sh`).
set -eu
plans=$(mktemp -d)
trap 'rm -rf "$plans"' EXIT
python3 bench/make_plans.py "$plans"
for plan in "$plans"/*; do
  bytes=$(wc -c < "$plan")
  start=$(date +%s%N)
  for _ in 1 2 3 4 5 6 7 8 9 10; do crates/drill/out/drill "$plan" exact < /dev/null > "$plans/said"; done
  end=$(date +%s%N)
  printf '%-18s %6d bytes  %s  %d microseconds a run\n' "$(basename "$plan")" "$bytes" "$(cat "$plans/said")" $(((end - start) / 10000))
done
