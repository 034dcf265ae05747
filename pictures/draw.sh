#!/usr/bin/env bash
# Draws outputs of runs_table. Needs gnuplot (Debian: package gnuplot-nox).
#
#   pictures/draw.sh distribution OUT [options] LABEL=FILE ...
#   pictures/draw.sh boxes        OUT [options] LABEL=FILE ...
#
# OUT ends in .svg or .png. Each FILE is an output of runs_table, LABEL its name in the picture; up to 12 of them.
#
# distribution: the chance of a signal at n and by n against n.
# boxes: for each output a box from the 25 to the 75 percentile, a line at the median, whiskers at 5 and 95, a mark at the mean. A percentile
# that is only known to lie in a span is drawn as that span. One that is open or beyond the horizon is never drawn as a number: an arrow
# starts at the last known value and its label says 'open from' or 'beyond'. The mean is that of the run length cut at the horizon H; its
# mark is hollow, and says so, where the 95 percentile is open or beyond or where more than 1 in 1,000 run lengths are longer than H.
# Boxes whose labels are alike after their last comma have one colour.
#
# Options: --log or --linear for the axis of points (else chosen by the range), --to N for its end (distribution), --title TEXT.
# shellcheck disable=SC2016 # a dollar in single quotes is for awk or gnuplot
set -euo pipefail
# shellcheck source=pictures/look.sh
. "$(dirname "${BASH_SOURCE[0]}")/look.sh"

usage() { say "usage: draw.sh distribution|boxes OUT.svg|OUT.png [--log|--linear] [--to N] [--title TEXT] LABEL=FILE ..."; }

[ $# -ge 3 ] || usage
kind=$1 out=$2
shift 2
case $kind in distribution | boxes) ;; *) usage ;; esac
start_format "$out"

scale=auto to=0 title=
labels=() files=()
while [ $# -gt 0 ]; do
  case $1 in
    --log) scale=log ;;
    --linear) scale=linear ;;
    --to)
      [[ ${2:-} =~ ^[1-9][0-9]{0,4}$ ]] || say "--to needs a number of points"
      [ "$kind" = distribution ] || say "--to is for distribution only"
      to=$2
      shift
      ;;
    --title)
      [ $# -ge 2 ] || say "--title needs a text"
      title=$2
      shift
      ;;
    --*) usage ;;
    *=*) labels+=("${1%=*}") files+=("${1##*=}") ;;
    *) say "$1: not of the form LABEL=FILE" ;;
  esac
  shift
done
count=${#files[@]}
[ "$count" -ge 1 ] || usage
[ "$count" -le 12 ] || say "at most 12 outputs in one picture"
for text in "$title" "${labels[@]}"; do
  [[ $text != *[[:cntrl:]]* ]] || say "a label or title has a control character"
done
start_work

# Checks one output and writes its rows (n, chance, by) and one line: H, mean, left at H, then for each percentile its kind, low and high.
read_output() {
  if ! [ -f "$1" ] || ! [ -r "$1" ]; then say "$1: no such file, or it cannot be read"; fi
  awk -F, -v file="$1" -v rows="$2" -v line="$3" '
    function bad(why) { print "draw.sh: " file ": " why > "/dev/stderr"; failed = 1; exit 1 }
    function no() { bad("not an output of runs_table (line " NR ")") }
    BEGIN { unit = 2 ^ 60; split("5 25 50 75 95", percent, " ") }
    NR == 1 && /^refused,[0-9]+,[0-9]+$/ { bad("runs_table refused the text (" $0 "), there is nothing to draw") }
    NR == 1 { if ($0 !~ /^standings,[1-9][0-9]*$/) no(); next }
    NR == 2 { if ($0 != "n,chance,by,left") no(); next }
    !mean_seen && /^[1-9][0-9]*,[0-9]+,[0-9]+,[0-9]+$/ {
      if ($1 + 0 != NR - 2) no()
      horizon = $1 + 0; left = $4 / unit
      printf "%d %.17g %.17g\n", $1, $2 / unit, $3 / unit > rows
      if (horizon == 1) print "0.5 0 0" > (rows ".by")
      by = $3 / unit
      printf "%d %.17g %.17g\n", $1, $2 / unit, by > (rows ".by")
      next
    }
    !mean_seen && horizon && /^arl,[0-9]+,[0-9]+,[0-9]+$/ { mean_seen = 1; mean = $2 + $3 / unit; next }
    mean_seen && q < 5 && $1 == "q" && $2 == percent[q + 1] {
      q++
      if ($0 ~ /^q,[0-9]+,at,[1-9][0-9]*$/) item = "at " $4 " " $4
      else if ($0 ~ /^q,[0-9]+,between,[1-9][0-9]*,[1-9][0-9]*$/) item = "between " $4 " " $5
      else if ($0 ~ /^q,[0-9]+,open,[1-9][0-9]*$/) item = "open " $4 " 0"
      else if ($0 ~ /^q,[0-9]+,beyond,[1-9][0-9]*$/) item = "beyond " $4 " 0"
      else no()
      items = items " " item
      next
    }
    { no() }
    END {
      if (failed) exit 1
      if (q != 5) bad("not a whole output of runs_table")
      printf "%.1f 0 %.17g\n", horizon + 0.5, by > (rows ".by")
      printf "%d %.17g %.17g%s\n", horizon, mean, left, items > line
    }' "$1"
}

for ((i = 0; i < count; i++)); do
  read_output "${files[i]}" "$work/rows.$i" "$work/line.$i" || exit 1
done

if [ "$kind" = distribution ]; then
  read -r end least most peak < <(
    for ((i = 0; i < count; i++)); do
      awk -v to="$to" 'NR == FNR { h = $1; q = $18; if (!q) q = h; if (to && to < h) h = to; next }
        $1 <= h && $2 > p { p = $2 } END { print h, q, p + 0 }' "$work/line.$i" "$work/rows.$i"
    done | awk '{ if ($1 > e) e = $1; if (NR == 1 || $2 < l) l = $2; if ($2 > m) m = $2; if ($3 > p) p = $3 } END { print e, l, m, p }'
  )
  if [ "$scale" = auto ]; then
    if [ "$most" -gt $((6 * least)) ]; then scale=log; else scale=linear; fi
  fi
  legend_rows=$(((count + 1) / 2))
  height=$((488 + 22 * legend_rows))
  bottom=$(awk -v r="$legend_rows" -v h="$height" 'BEGIN { printf "%.4f", (82 + 22 * r) / h }')
  names=()
  for ((i = 0; i < count; i++)); do
    names+=("${labels[i]} (H = $(commas "$(cut -d' ' -f1 "$work/line.$i")"))")
  done
  {
    start_terminal 940 "$height"
    echo "set multiplot"
    echo "set label 1 $(quoted "${title:-Run-length distribution}") at screen 0.5,0.955 center noenhanced font ',$big' textcolor rgb '#222222'"
    if [ "$scale" = log ]; then
      echo "set logscale x"
      echo "set xrange [0.8:($end+0.5)*1.05]"
      echo "set xtics $(tics "$end" 1 $((end >= 500)))"
    else
      echo "set xrange [0:$end*1.01+0.5]"
      echo "set xtics $(tics "$end" 0)"
    fi
    echo "set xlabel 'points (periods), n$([ "$scale" = linear ] || echo ', logarithmic')' textcolor rgb '#222222'"
    echo "set tmargin at screen 0.90; set bmargin at screen $bottom"
    echo "unset key"
    plots() { # ending of the rows, column, style
      local i sep=
      for ((i = 0; i < count; i++)); do
        printf "%s'%s/rows.%d%s' using 1:%s with %s lc rgb '%s' lw 1.8 notitle" "$sep" "$work" "$i" "$1" "$2" "$3" "${colours[i]}"
        sep=', '
      done
      echo
    }
    legend_at_foot "$height" 2 "${names[@]}"
    echo "set lmargin at screen 0.112; set rmargin at screen 0.488"
    if awk -v p="$peak" 'BEGIN { exit !(p > 0) }'; then echo "set yrange [0:$peak*1.08]"; else echo "set yrange [0:1]"; fi
    echo "set format y '%.$(awk -v p="$peak" 'BEGIN { d = 1; while (p > 0 && p < 1 && d < 12) { p *= 10; d++ } print d }')f'"
    echo "set ylabel 'chance of a signal at n  (units / 2^{60})' textcolor rgb '#222222'"
    printf 'plot %s\n' "$(plots "" 2 histeps)"
    echo "unset label; unset arrow"
    echo "set format y '%g'"
    echo "set lmargin at screen 0.592; set rmargin at screen 0.970"
    echo "set yrange [0:1.02]"
    echo "set ytics ('0' 0, '0.05' 0.05, '0.25' 0.25, '0.50' 0.5, '0.75' 0.75, '0.95' 0.95, '1' 1)"
    echo "set ylabel 'chance of a signal by n  (units / 2^{60})' textcolor rgb '#222222'"
    printf 'plot %s\n' "$(plots .by 3 steps)"
    echo "unset multiplot"
  } >"$work/script"
  heading="Run-length distribution"
else
  # The axis: every known end of a percentile, and every drawn mean.
  read -r low high < <(
    for ((i = 0; i < count; i++)); do
      awk '{ for (p = 0; p < 5; p++) { k = $(4 + 3 * p); a = $(5 + 3 * p); b = $(6 + 3 * p)
               if (k == "at" || k == "between") { print a; print b } else print a } }' "$work/line.$i"
    done | awk 'NR == 1 || $1 < l { l = $1 } $1 > h { h = $1 } END { print l, h }'
  )
  if [ "$scale" = auto ]; then
    if [ "$high" -gt $((12 * low)) ]; then scale=log; else scale=linear; fi
  fi
  if [ "$scale" = log ]; then
    from=$(awk -v l="$low" 'BEGIN { printf "%.6g", l * 0.8 }')
    until=$(awk -v l="$low" -v h="$high" 'BEGIN { printf "%.6g", h * exp(0.06 * log(h / l + 2)) }')
  else
    from=0
    until=$(awk -v h="$high" 'BEGIN { printf "%.6g", h * 1.08 + 0.5 }')
  fi
  # A colour for each ending of a label.
  endings=() tint=()
  for ((i = 0; i < count; i++)); do
    ending=${labels[i]##*,}
    [[ ${labels[i]} == *,* ]] || ending="$i ${labels[i]}"
    place=-1
    for ((j = 0; j < ${#endings[@]}; j++)); do [ "${endings[j]}" = "$ending" ] && place=$j; done
    if [ "$place" -lt 0 ]; then
      place=${#endings[@]}
      endings+=("$ending")
    fi
    tint+=("${colours[place]}")
  done
  : >"$work/marks"
  for ((i = 0; i < count; i++)); do
    awk -v y="$((count - i))" -v rgb="${tint[i]}" -v until="$until" '
      function known(p) { return kind[p] == "at" || kind[p] == "between" }
      function commas(v, s, t) {
        s = v ""
        while (length(s) > 3) { t = "," substr(s, length(s) - 2) t; s = substr(s, 1, length(s) - 3) }
        return s t
      }
      function put(what, a, b, text) { printf "%s %.8g %.8g %s %s %s\n", what, a, b, y, rgb, text }
      {
        horizon = $1; mean = $2; left = $3
        for (p = 1; p <= 5; p++) { kind[p] = $(1 + 3 * p); a[p] = $(2 + 3 * p); b[p] = $(3 + 3 * p) }
        split("5 25 50 75 95", percent, " ")
        known_count = 0
        while (known_count < 5 && known(known_count + 1)) known_count++
        k = known_count
        # the box, whole or as far as it is known
        if (k >= 4) put("box", a[2], b[4])
        else if (k >= 2) put("part", a[2], b[k])
        # whiskers between the known percentiles
        if (k >= 2) put("whisker", b[1], a[2])
        if (k == 5) put("whisker", b[4], a[5])
        # each known percentile: a line or cap where it is a point, a band where it is a span
        for (p = 1; p <= k; p++) {
          size = (p == 1 || p == 5) ? "cap" : (p == 3 ? "median" : "edge")
          if (a[p] == b[p]) put(size, a[p], a[p])
          else put(size == "cap" ? "capspan" : "span", a[p], b[p])
        }
        # the open end
        if (k < 5) {
          text = ""
          for (p = k + 1; p <= 5; p++) {
            said = (kind[p] == "open" ? "open from " : "beyond ") commas(a[p])
            if (said != last) { if (last != "") text = text " %: " last "; "; text = text percent[p] } else text = text ", " percent[p]
            last = said
          }
          text = text " %: " last
          if (k > 0) put("arrow", b[k], until)
          else if (kind[1] == "open") put("arrow", a[1], until)
          put(k > 0 || kind[1] == "open" ? "say" : "only", k > 0 ? b[k] : a[1], 0, text)
        }
        if (k > 0 || kind[1] == "open") {
          if (k == 5 && left <= 0.001) put("mean", mean, 0)
          else put("cutmean", mean, 0, horizon)
        }
      }' "$work/line.$i" >>"$work/marks"
  done
  for what in box part whisker cap edge median span capspan arrow mean cutmean; do
    awk -v what="$what" '$1 == what { c = $5; sub(/^#/, "0x", c); print $2, $3, $4, c }' "$work/marks" >"$work/$what"
  done
  has() { [ -s "$work/$1" ]; }

  legend=()
  if has box || has part; then legend+=("box 25 to 75 %"); fi
  if has median; then legend+=("median median"); fi
  if has cap || has capspan; then legend+=("cap whiskers at 5 and 95 %"); fi
  if has span || has capspan; then legend+=("span percentile between two values"); fi
  if has arrow; then legend+=("arrow open end"); fi
  if has mean; then legend+=("mean mean"); fi
  if has cutmean; then legend+=("cutmean mean cut at H"); fi
  legend_rows=1
  [ ${#legend[@]} -le 5 ] || legend_rows=2
  foot=$((82 + 22 * legend_rows))
  height=$((48 + foot + 58 * count))
  [ "$height" -ge 300 ] || height=300
  widest=0
  for text in "${labels[@]}"; do [ "${#text}" -le "$widest" ] || widest=${#text}; done
  margin=$(awk -v w="$widest" 'BEGIN { m = 30 + 7.4 * w; if (m > 360) m = 360; printf "%.4f", m / 940 }')
  {
    start_terminal 940 "$height"
    echo "set label 2000 $(quoted "${title:-Run lengths: percentiles and mean}") at screen 0.5,1-22.0/$height \\"
    echo "  center noenhanced font ',$big' textcolor rgb '#222222'"
    echo "set lmargin at screen $margin; set rmargin at screen 0.97"
    echo "set bmargin at screen $foot.0/$height; set tmargin at screen 1-48.0/$height"
    [ "$scale" = linear ] || echo "set logscale x"
    echo "set xrange [$from:$until]; set yrange [0.4:$count.6]"
    echo "set xtics $(tics "$until" "$([ "$scale" = log ] && echo 1 || echo 0)")"
    echo "set xlabel 'points (periods)$([ "$scale" = linear ] || echo ', logarithmic')' textcolor rgb '#222222'"
    sep=
    printf 'set ytics noenhanced scale 0 ('
    for ((i = 0; i < count; i++)); do
      printf '%s%s %d' "$sep" "$(quoted "${labels[i]}")" "$((count - i))"
      sep=', '
    done
    echo ')'
    echo "set grid xtics noytics"
    # words: above the arrow, alone, or under a hollow mean
    n=0
    style="noenhanced textcolor rgb '#333333' front font"
    while read -r what a _ y _ text; do
      n=$((n + 1))
      case $what in
        say) echo "set label $n $(quoted "$text") at $until,$y + 0.2 right $style ',$small'" ;;
        only) echo "set label $n $(quoted "$text") at graph 0.5,first $y center $style ',$small'" ;;
        cutmean) echo "set label $n $(quoted "mean cut at $(commas "$text")") at $a,$y - 0.41 center $style ',$smaller'" ;;
        *) ;;
      esac
    done <"$work/marks"
    # the legend below, in one line or two: a sample and a word for all that is drawn
    echo "unset key"
    if [ ${#legend[@]} -gt 0 ]; then
      printf '%s\n' "${legend[@]}" | awk -v h="$height" -v rows="$legend_rows" -v mark="$mark" '
      function spot(dx, dy) { return sprintf("screen %.4f,%.4f", (x + dx) / 940, (y + dy) / h) }
      function rectangle(fill) { print "set object " ++objects " rectangle from " spot(0, -6) " to " spot(26, 6) " fc rgb \047#555555\047 fs " fill }
      function stroke(ax, ay, bx, by, style) { print "set arrow " ++arrows " from " spot(ax, ay) " to " spot(bx, by) " " style " " grey }
      function words(text, dx, style) { print "set label " (1000 + ++labels) " \047" text "\047 at " spot(dx, 0) " " style }
      BEGIN { grey = "lc rgb \047#555555\047"; black = "rgb \047#222222\047" }
      {
        what[NR] = $1; word[NR] = substr($0, length($1) + 2); wide[NR] = 34 + 6.8 * length(word[NR]) + 20
        line[NR] = rows == 1 || NR <= 4 ? 1 : 2; total[line[NR]] += wide[NR]
      } END {
        for (i = 1; i <= NR; i++) {
          if (line[i] != line[i - 1]) { x = (940 - total[line[i]] + 20) / 2; y = 18 + 22 * (rows - line[i]) }
          if (what[i] == "box") rectangle("solid 0.28 border " grey)
          else if (what[i] == "span") rectangle("solid 0.75 noborder")
          else if (what[i] == "median") stroke(15, -8, 15, 8, "nohead lw 3.2")
          else if (what[i] == "cap") {
            stroke(0, 0, 26, 0, "nohead lw 1.3")
            stroke(0, -5, 0, 5, "nohead lw 1.3")
            stroke(26, -5, 26, 5, "nohead lw 1.3")
          } else if (what[i] == "arrow") stroke(0, 0, 28, 0, "head filled size screen 0.010,22 lw 1.3 dt (6,4)")
          else words("", 15, "point pt " (what[i] == "mean" ? 13 : 12) " ps " mark " lw 1.3 lc " black)
          words(word[i], 34, "left noenhanced textcolor " black)
          x += wide[i]
        }
      }'
    fi
    parts=()
    add() { # what, columns, style: one part of the plot, where there is any of it
      if has "$1"; then parts+=("'$work/$1' using $2 with $3 notitle"); fi
    }
    line='vectors nohead lw 1.3 lc rgb variable'
    tall='1:3:1:2:($3-0.26):($3+0.26):4' low='1:3:1:2:($3-0.13):($3+0.13):4'
    for what in box part; do
      add $what "$tall" 'boxxyerror fs solid 0.28 noborder lc rgb variable'
      add $what '1:($3-0.26):($2-$1):(0):4' "$line"
      add $what '1:($3+0.26):($2-$1):(0):4' "$line"
    done
    add whisker '1:3:($2-$1):(0):4' "$line"
    add cap '1:($3-0.13):(0):(0.26):4' "$line"
    add edge '1:($3-0.26):(0):(0.52):4' "$line"
    add span "$tall" 'boxxyerror fs solid 0.75 noborder lc rgb variable'
    add capspan "$low" 'boxxyerror fs solid 0.75 noborder lc rgb variable'
    add median '1:($3-0.26):(0):(0.52):4' 'vectors nohead lw 3.2 lc rgb variable'
    add arrow '1:3:($2-$1):(0):4' 'vectors head filled size screen 0.012,22 lw 1.3 dt (6,4) lc rgb variable'
    add mean 1:3 "points pt 13 ps $mark lc rgb '#222222'"
    add cutmean 1:3 "points pt 13 ps $mark lc rgb 'white'"
    add cutmean 1:3 "points pt 12 ps $mark lw 1.3 lc rgb '#222222'"
    # where only words are drawn, the axes still need something to stand on
    if [ ${#parts[@]} -eq 0 ]; then parts+=("NaN notitle"); fi
    printf 'plot %s' "${parts[0]}"
    for ((i = 1; i < ${#parts[@]}; i++)); do printf ', %s' "${parts[i]}"; done
    echo
  } >"$work/script"
  heading="Run lengths: percentiles and mean"
fi

finish "$out" "$heading"
