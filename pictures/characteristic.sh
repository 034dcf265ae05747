#!/usr/bin/env bash
# Draws the operating characteristic of rule lists. Needs the built programs and gnuplot (Debian: package gnuplot-nox).
#
#   pictures/characteristic.sh OUT [STEP] [options] [LABEL=TEXT ...]
#
# OUT ends in .svg or .png. Each TEXT is a text of which the rule lines are taken, and no others; LABEL is its name in the picture; up to 12 of them.
# Without any, R1 alone, Duncan and Western Electric are drawn, from examples/.
#
# Against the shift of the mean, from -1.5 to 1.5 sigma: the mean run length, and the chance of a signal by period 48; on its right axis one
# minus it, the chance that none has come. For each shift runs_weights makes the weights and runs_table the table to 4,096; between two shifts
# a straight line is drawn. The mean is that of the run length cut at 4,096. It is dashed, and the picture says so, where more than 1 in 1,000
# run lengths are longer.
#
# STEP is the distance of two shifts in hundredths of sigma, 1 to 150, else 10. Options: --by N for another period than 48, 1 to 4,096,
# --title TEXT.
# shellcheck disable=SC2016 # a dollar in single quotes is for awk or gnuplot
set -euo pipefail
# shellcheck source=pictures/look.sh
. "$(dirname "${BASH_SOURCE[0]}")/look.sh"
root=$(cd "$(dirname "${BASH_SOURCE[0]}")/.." && pwd)
bin=$root/target/bin
horizon=4096

usage() { say "usage: characteristic.sh OUT.svg|OUT.png [STEP] [--by N] [--title TEXT] [LABEL=TEXT ...]"; }

[ $# -ge 1 ] || usage
out=$1
shift
start_format "$out"

step=10 by=48 title="Operating characteristic"
labels=() texts=()
while [ $# -gt 0 ]; do
  case $1 in
    --by)
      if ! [[ ${2:-} =~ ^[1-9][0-9]{0,3}$ ]] || [ "$2" -gt $horizon ]; then say "--by needs a period from 1 to $horizon"; fi
      by=$2
      shift
      ;;
    --title)
      [ $# -ge 2 ] || say "--title needs a text"
      title=$2
      shift
      ;;
    --*) usage ;;
    *=*) labels+=("${1%=*}") texts+=("${1##*=}") ;;
    *)
      if ! [[ $1 =~ ^[1-9][0-9]{0,2}$ ]] || [ "$1" -gt 150 ]; then say "$1: neither of the form LABEL=TEXT nor a step from 1 to 150"; fi
      step=$1
      ;;
  esac
  shift
done
if [ ${#texts[@]} -eq 0 ]; then
  labels=("R1 alone" "Duncan" "Western Electric")
  texts=("$root"/examples/{shewhart,duncan,western-electric}-in-control.txt)
fi
count=${#texts[@]}
[ "$count" -le 12 ] || say "at most 12 rule lists in one picture"
for text in "$title" "${labels[@]}"; do
  [[ $text != *[[:cntrl:]]* ]] || say "a label or title has a control character"
done
for program in runs_weights runs_table; do
  [ -x "$bin/$program" ] || say "target/bin/$program is missing: build it with 'bash scripts/programs.sh' at the root of the repository"
done
start_work

# From 0 by steps to both sides, and the two ends.
shifts=(-150)
for ((s = -(149 / step) * step; s < 150; s += step)); do shifts+=("$s"); done
shifts+=(150)

# Writes a row for each shift: the shift in sigma, the mean, the chance by the period, and what is left at the horizon.
for ((i = 0; i < count; i++)); do
  text=${texts[i]}
  if ! [ -f "$text" ] || ! [ -r "$text" ]; then say "$text: no such file, or it cannot be read"; fi
  grep '^rule,' "$text" >"$work/rules" || say "$text: it has no rule line"
  for s in "${shifts[@]}"; do
    { echo "shift,$s" | "$bin/runs_weights"; cat "$work/rules"; echo "horizon,$horizon"; } | "$bin/runs_table" >"$work/table" || true
    awk -F, -v s="$s" -v by="$by" '
      $1 == by && NF == 4 { chance = $3 }
      $1 ~ /^[0-9]+$/ { left = $4 }
      $1 == "arl" { mean = $2 + $3 / 2 ^ 60 }
      END {
        if ($0 !~ /^q,95,/) exit 1
        printf "%.2f %.17g %.17g %.17g\n", s / 100, mean, chance / 2 ^ 60, left / 2 ^ 60
      }' "$work/table" >>"$work/rows.$i" || say "$text: no table of its rules, runs_table printed '$(tail -n 1 "$work/table")'"
  done
done

read -r low top long < <(awk '
  { if (NR == 1 || $2 < low) low = $2; if ($2 > high) high = $2; if ($4 > 0.001) long = 1 }
  END {
    top = 1
    while (top < high * 1.05) top *= ++turn % 3 == 2 ? 2.5 : 2
    print low, top, long + 0
  }' "$work"/rows.*)

columns=3
for text in "${labels[@]}"; do [ "${#text}" -le 36 ] || columns=2; done
foot=$((82 + 22 * ((count + columns - 1) / columns) + 20 * long))
height=$((410 + foot))
{
  start_terminal 940 "$height"
  echo "set multiplot"
  echo "set label 1 $(quoted "$title") at screen 0.5,0.955 center noenhanced font ',$big' textcolor rgb '#222222'"
  legend_at_foot "$height" "$columns" "${labels[@]}"
  echo "unset key"
  echo "set tmargin at screen 0.88; set bmargin at screen $foot.0/$height"
  echo "set xrange [-1.5:1.5]; set xtics 0.5; set mxtics 5; set format x '%g'"
  echo "set xlabel 'shift of the mean, in sigma' textcolor rgb '#222222'"
  sound() {
    echo "set arrow 100 from 0,graph 0 to 0,graph 1 nohead back lc rgb '#999999' lw 1 dt (4,4)"
    echo "set label 100 'sound core' at 0,graph 1.035 center font ',$small' textcolor rgb '#555555'"
  }
  plots() { # columns, more of the style
    local i sep=
    for ((i = 0; i < count; i++)); do
      printf "%s'%s/rows.%d' using %s with lines lc rgb '%s' lw 1.8 %s notitle" "$sep" "$work" "$i" "$1" "${colours[i]}" "$2"
      sep=', '
    done
  }
  sound
  echo "set lmargin at screen 0.090; set rmargin at screen 0.445"
  echo "set logscale y"
  echo "set yrange [$low*0.85:$top]"
  echo "set ytics $(tics "$top" 1)"
  echo "set ylabel 'mean run length (cut at $(commas $horizon)), logarithmic' textcolor rgb '#222222'"
  if [ "$long" = 0 ]; then
    echo "plot $(plots 1:2 '')"
  else
    echo "set label 101 'dashed: over 1 in 1,000 run lengths are above $(commas $horizon)' at graph 0.5,screen $((foot - 72)).0/$height \\"
    echo "  center font ',$small' textcolor rgb '#333333'"
    echo "plot $(plots 1:2 'dt (4,4)'), $(plots '1:($4 > 0.001 ? NaN : $2)' '')"
  fi
  echo "unset label; unset arrow; unset logscale y"
  sound
  echo "set lmargin at screen 0.545; set rmargin at screen 0.900"
  echo "set border 11"
  echo "set yrange [0:1.02]; set y2range [0:1.02]"
  echo "set format y '%g'; set ytics 0.2; set y2tics ('1' 0, '0.8' 0.2, '0.6' 0.4, '0.4' 0.6, '0.2' 0.8, '0' 1)"
  echo "set ylabel 'chance of a signal by period $(commas "$by")' textcolor rgb '#222222'"
  echo "set y2label 'chance of no signal by period $(commas "$by") (OC)' textcolor rgb '#222222'"
  echo "plot $(plots 1:3 '')"
  echo "unset multiplot"
} >"$work/script"
finish "$out" "Operating characteristic"
