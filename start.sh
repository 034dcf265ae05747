#!/usr/bin/env bash
# From a fresh machine to the figures of the README's worked plan: installs what is missing, proves and builds the three programs, and prints
# how likely the Western Electric rules are to flag a sound core in a soak of 1,000 periods. Needs the Rattle kit (rt).
set -euo pipefail
cd "$(dirname "${BASH_SOURCE[0]}")"

bash scripts/needs.sh rt bc

echo "Proving and building runs_table, runs_monitor and runs_weights: some minutes the first time." >&2
mkdir -p target
log=target/start.log
if ! bash scripts/programs.sh >"$log" 2>&1; then
  tail -n 30 "$log" >&2
  echo "The programs were not built; all that was said is in $log." >&2
  exit 1
fi

# The text: the weights of a core that is not shifted, the rules, and the number of periods.
out=target/soak.out
{
  printf 'shift,0\n' | target/bin/runs_weights
  grep '^rule,' examples/western-electric-in-control.txt
  echo 'horizon,1000'
} | target/bin/runs_table >"$out"
bounds=$(bash scripts/bounds.sh "$out" 1000)
echo "The number of chart states that differ, and the row of period 1,000 (period, chance at it, chance by it, left), in units of 2^-60:"
grep -E '^(standings|1000),' "$out"
echo "A sound core is flagged within 1,000 periods with a chance of $bounds."
echo "The least period by which that chance is 5, 25, 50, 75 and 95 in 100 or more:"
grep '^q,' "$out"
