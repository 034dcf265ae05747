# What the scripts here share: how a picture looks, and how gnuplot is run. It is sourced, and not run by itself.
# shellcheck shell=bash disable=SC2034 # colours and sizes are for the script that sources this
export LC_ALL=C

say() { echo "${0##*/}: $*" >&2; exit 1; }

# Sets format from the ending of a name, and the sizes of the title, of small words and of marks: the two terminals count differently.
start_format() { # name
  case $1 in
    *.svg) format=svg big=17 small=12 smaller=11 mark=0.75 ;;
    *.png) format=png big=13 small=9 smaller=8 mark=1.5 ;;
    *) say "$1: the name must end in .svg or .png" ;;
  esac
}

# Sets work, a folder that is gone at the end; without gnuplot there is nothing to do.
start_work() {
  command -v gnuplot >/dev/null || say "gnuplot is missing: install it (Debian: package gnuplot-nox)"
  work=$(mktemp -d)
  trap 'rm -rf "$work"' EXIT
}

# 1000 as 1,000, and -1000 as -1,000
commas() {
  local s=${1#-} t=
  while [ "${#s}" -gt 3 ]; do
    t=,${s: -3}$t
    s=${s%???}
  done
  echo "${1%%[0-9]*}$s$t"
}

quoted() { printf "'%s'" "${1//\'/\'\'}"; }

# Prints tics for an axis of points: its end, 1 for a logarithmic one, 1 for words at powers of ten only.
tics() {
  awk -v end="$1" -v log_axis="$2" -v sparse="${3:-0}" '
    function commas(v, s, t) {
      s = v ""
      while (length(s) > 3) { t = "," substr(s, length(s) - 2) t; s = substr(s, 1, length(s) - 3) }
      return s t
    }
    function tic(v, bare) { printf "%s\047%s\047 %d", (seen++ ? ", " : "("), (bare ? "" : commas(v)), v }
    BEGIN {
      if (log_axis) { for (d = 1; d <= end; d *= 10) { tic(d); if (2 * d <= end) tic(2 * d, sparse); if (5 * d <= end) tic(5 * d, sparse) } }
      else {
        step = 1; turn = 0
        while (end / step > 8) { step *= (turn % 3 == 1) ? 2.5 : 2; turn++ }
        for (v = 0; v <= end; v += step) tic(v)
      }
      print ")"
    }'
}

colours=('#0072B2' '#D55E00' '#009E73' '#CC79A7' '#E69F00' '#56B4E9' '#6A3D9A' '#7F7F7F' '#8C564B' '#17A398' '#B2182B' '#4D4D4D')

start_terminal() { # width height
  if [ "$format" = svg ]; then
    echo "set terminal svg size $1,$2 fixed enhanced font 'sans-serif,13' linewidth 1 background rgb 'white'"
  else
    echo "set terminal pngcairo size $1,$2 enhanced font 'sans-serif,10' linewidth 1.2 background rgb 'white'"
  fi
  echo "set output '$work/picture.$format'"
  echo "set encoding utf8"
  echo "set border 3 lc rgb '#555555'"
  echo "set tics nomirror out textcolor rgb '#333333'"
  echo "set grid lc rgb '#E4E4E4' lt 1 lw 1"
}

# A legend at the foot of a picture 940 wide: a stroke and a name for each colour, in so many columns. Labels from 2 and arrows from 1.
legend_at_foot() { # height columns name ...
  local height=$1 columns=$2 i widest=0 name
  shift 2
  for name in "$@"; do [ "${#name}" -le "$widest" ] || widest=${#name}; done
  for ((i = 0; i < $#; i++)); do
    awk -v i="$i" -v columns="$columns" -v all="$#" -v w="$widest" -v h="$height" -v rgb="${colours[i]}" 'BEGIN {
      rows = int((all + columns - 1) / columns); beside = all < columns ? all : columns
      column = 40 + 7.2 * w; used = beside * column
      if (used > 920) { column = 920 / columns; used = 920 }
      x = (940 - used) / 2 + (i % columns) * column; y = (16 + 22 * (rows - 1 - int(i / columns))) / h
      printf "set arrow %d from screen %.4f,%.4f to screen %.4f,%.4f nohead lw 2.2 lc rgb \047%s\047\n", i + 1, x / 940, y, (x + 26) / 940, y, rgb
      printf "set label %d at screen %.4f,%.4f left noenhanced textcolor rgb \047#222222\047 ", i + 2, (x + 33) / 940, y
    }'
    name=$((i + 1))
    quoted "${!name}"
    echo
  done
}

# Runs gnuplot on the script in the folder, and puts the picture where it is wanted. An SVG gets a title, and no words about gnuplot.
finish() { # name title
  gnuplot -d "$work/script" >"$work/said" 2>&1 || { cat "$work/said" >&2; say "gnuplot failed"; }
  [ -s "$work/picture.$format" ] || { cat "$work/said" >&2; say "gnuplot drew nothing"; }
  if [ "$format" = svg ]; then
    sed -e "s|<title>Gnuplot</title>|<title>$2</title>|" -e '/<desc>Produced by GNUPLOT/d' \
      -e 's|<title>gnuplot_plot_[^<]*</title>||' "$work/picture.svg" >"$work/clean.svg"
    mv "$work/clean.svg" "$work/picture.svg"
  fi
  cp "$work/picture.$format" "$1"
}
