#!/usr/bin/env bash
# Draws a monitored series: the readings of one node, the zones and their limits, and the signals with the rules that hold. Needs gnuplot
# (Debian: package gnuplot-nox).
#
#   pictures/series.sh OUT [options] TEXT OUTPUT
#
# OUT ends in .svg or .png. TEXT is a monitor text, OUTPUT what runs_monitor printed for it. The chart, the rules and the readings are those of
# the text. What signals, and which rules hold, is what the output says: no rule is tried here. Both are checked, and that the output belongs to
# the text; it has no readings, so those cannot be compared.
#
# Against the period: the readings, joined by a line that breaks behind each signal, where the chart is cleared; the zones, and their limits at
# the centre and at 1, 2 and 3 sigma. Above each signal stand the rules that hold and its period, and at the foot what these rules are. Where
# there is no room for that, each rule has a row below the readings, with a stroke at each period at which it holds. A reading over 5 sigma off
# the centre is drawn as a triangle at the edge, with its value where there is room.
#
# Options: --node K for the node, 0 to 15, needed where several have points; --from N and --to N for a part of the series, by period;
# --title TEXT.
# shellcheck disable=SC2016 # a dollar in single quotes is for awk or gnuplot
set -euo pipefail
# shellcheck source=pictures/look.sh
. "$(dirname "${BASH_SOURCE[0]}")/look.sh"

usage() { say "usage: series.sh OUT.svg|OUT.png [--node K] [--from N] [--to N] [--title TEXT] TEXT OUTPUT"; }

[ $# -ge 1 ] || usage
out=$1
shift
start_format "$out"

node='' from=1 to='' title="Monitored series"
files=()
while [ $# -gt 0 ]; do
  case $1 in
    --node)
      if ! [[ ${2:-} =~ ^(0|[1-9][0-9]?)$ ]] || [ "$2" -gt 15 ]; then say "--node needs a node from 0 to 15"; fi
      node=$2
      shift
      ;;
    --from | --to)
      [[ ${2:-} =~ ^[1-9][0-9]{0,4}$ ]] || say "$1 needs a period, 1 or more"
      if [ "$1" = --from ]; then from=$2; else to=$2; fi
      shift
      ;;
    --title)
      [ $# -ge 2 ] || say "--title needs a text"
      title=$2
      shift
      ;;
    --*) usage ;;
    *) files+=("$1") ;;
  esac
  shift
done
[ ${#files[@]} -eq 2 ] || usage
text=${files[0]} output=${files[1]}
[[ $title != *[[:cntrl:]]* ]] || say "the title has a control character"
if [ -n "$to" ] && [ "$from" -gt "$to" ]; then say "--from $from is behind --to $to"; fi
for file in "${files[@]}"; do
  if ! [ -f "$file" ] || ! [ -r "$file" ]; then say "$file: no such file, or it cannot be read"; fi
done
start_work

plural() { if [ "$1" = 1 ]; then echo "1 $2"; else echo "$(commas "$1") $2s"; fi; }

# Checks the text and writes the chart (centre, sigma), the words of each rule, and for each point its node and reading. Prints what is wrong.
read_text() {
  local ended # lines that end in LF
  ended=$(wc -l <"$1")
  awk -F, -v work="$work" -v ended="$ended" '
    function bad(why) { print why; failed = 1; exit 1 }
    function no(line) { bad("not a monitor text (line " line ")") }
    function within(s, low, high) { return s ~ /^(0|-?[1-9][0-9]*)$/ && length(s) < 12 && s + 0 >= low && s + 0 <= high }
    function words(k, m, z, i, all) {
      for (i = 1; i <= 8; i++) if (int(z / 2 ^ number[i]) % 2) all = all (all == "" ? "" : ", ") name[i]
      return (m == 1 ? "1" : k == m ? k " in a row" : k " of " m) " in " all
    }
    BEGIN { split("S A1 B1 C1 C0 C2 B2 A2", name, " "); split("0 1 2 3 7 4 5 6", number, " ") }
    NR > ended { no(NR) }
    NR == 1 && NF == 3 && $1 == "chart" && within($2, -2147483648, 2147483647) && within($3, 1, 65535) { print $2, $3 > (work "/chart"); next }
    NR > 1 && !points && rules < 8 && NF == 4 && $1 == "rule" && within($3, 1, 9) && within($2, 1, $3) && within($4, 1, 255) {
      print words($2, $3, $4) > (work "/rules")
      rules++
      next
    }
    rules && NF == 3 && $1 == "point" && within($2, 0, 15) && within($3, -2147483648, 2147483647) { points++; print $2 "," $3 > (work "/points"); next }
    { no(NR) }
    END {
      if (failed) exit 1
      if (!rules) no(NR + 1)
      if (!points) bad("it has no points, there is nothing to draw")
    }' <"$1"
}

# Checks the output, by itself and then against the text, and writes for each point its node, period, mask (0 where it is quiet) and reading.
# Prints what is wrong.
read_output() {
  local ended # lines that end in LF
  ended=$(wc -l <"$1")
  awk -F, -v work="$work" -v ended="$ended" -v rules="$(wc -l <"$work/rules")" '
    function bad(why) { print why; failed = 1; exit 1 }
    function no() { bad("not an output of runs_monitor (line " FNR ")") }
    function cut() { bad("not a whole output of runs_monitor") }
    function other(why) { bad(why ": it does not belong to the text") }
    NR == FNR { of[NR] = $1; reading[NR] = $2; points = NR; next }
    FNR > ended { cut() }
    /,0[0-9]/ { no() }
    /^quiet,[0-9]+,[0-9]+$/ || /^signal,[0-9]+,[0-9]+,[0-9]+$/ { bad("no period in line " FNR ": an older runs_monitor printed it") }
    !totals && (/^quiet,[0-9]+,[0-9]+,[0-9]+$/ || /^signal,[0-9]+,[0-9]+,[0-9]+,[0-9]+$/) {
      k = $2 + 0; n = $3 + 0; signal = $1 == "signal"; period = $NF + 0
      if (k > 15 || signal && ($4 < 1 || $4 > 255)) no()
      lines++
      node[lines] = k; periods[lines] = period; mask[lines] = signal ? $4 + 0 : 0
      if (period != ++seen[k]) bad("the periods of node " k " are not 1, 2, 3, .. (line " FNR ")")
      if (n != ++since[k]) bad("the points of node " k " since its last clearing are not counted 1, 2, 3, .. (line " FNR ")")
      if (signal) { signals[k]++; since[k] = 0 }
      next
    }
    /^total,[0-9]+,[0-9]+,[0-9]+$/ {
      k = $2 + 0
      if (k > 15 || totals && k <= last || !seen[k]) no()
      if ($3 != seen[k] || $4 != signals[k] + 0) bad("the total of node " k " does not add up (line " FNR ")")
      totals++
      last = k
      next
    }
    { no() }
    END {
      if (failed) exit 1
      for (k in seen) if (seen[k]) nodes++
      if (!lines || totals != nodes) cut()
      if (lines != points) other("it has " lines " points and the text " points)
      for (i = 1; i <= points; i++) {
        if (node[i] != of[i]) other("line " i " is of node " node[i] ", and point " i " of the text of node " of[i])
        if (mask[i] >= 2 ^ rules) other("the mask " mask[i] " in line " i " names a rule that the text does not have")
        print node[i], periods[i], mask[i], reading[i] > (work "/all")
      }
    }' "$work/points" - <"$1"
}

if head -n 1 "$output" | grep -q -x -E 'refused,[0-9]+,[0-9]+'; then
  say "$output: runs_monitor refused the text ($(head -n 1 "$output")), there is nothing to draw"
fi
why=$(read_text "$text") || say "$text: $why"
why=$(read_output "$output") || say "$output: $why"

# The node, and its part that is drawn: period, mask, reading.
mapfile -t nodes < <(cut -d' ' -f1 "$work/all" | sort -n -u)
listed=$(printf ', %s' "${nodes[@]}")
listed=${listed#, }
if [ -z "$node" ]; then
  [ ${#nodes[@]} -eq 1 ] || say "$text: nodes $listed have points, pick one with --node"
  node=${nodes[0]}
fi
awk -v node="$node" '$1 == node { print $2, $3, $4 }' "$work/all" >"$work/node"
end=$(wc -l <"$work/node")
[ "$end" -ge 1 ] || say "$text: node $node has no point; nodes that have: $listed"
[ "$from" -le "$end" ] || say "--from $from: node $node has $(plural "$end" period)"
if [ -z "$to" ] || [ "$to" -gt "$end" ]; then to=$end; fi
sed -n "$from,${to}p" "$work/node" >"$work/rows"
read -r centre sigma <"$work/chart"

limit=() left=0
for i in -3 -2 -1 0 1 2 3; do
  limit[i + 3]=$(commas $((centre + i * sigma)))
  [ "${#limit[i + 3]}" -le "$left" ] || left=${#limit[i + 3]}
done
left=$((54 + 15 * left / 2)) right=850

# Places all that is drawn: strokes and marks go to files; words, with where they stand, to one more. x is the period, y the distance from the
# centre in sigma. Prints the room beside x, the ends of y, and how many there are: signals, tiers of words above (0: rows below), readings at an edge.
read -r pad low high signals tiers beyond < <(awk -v centre="$centre" -v sigma="$sigma" -v from="$from" -v to="$to" -v left="$left" -v right="$right" \
  -v work="$work" '
  function across(x) { return left + (right - left) * (x - from + pad) / (to - from + 2 * pad) }
  function held(mask, i, all) {
    for (i = 0; i < 8; i++) if (int(mask / 2 ^ i) % 2) all = all (all == "" ? "" : ", ") i
    return (all ~ /,/ ? "rules " : "rule ") all
  }
  function reach(most) { return most <= 3.5 ? 3.8 : most <= 5 ? most + 0.3 : 5.5 }
  # A flag for signal i on its pole: does one of the others, all to its right, stand in its way?
  function free(i, tier, a, b, j) {
    if (a < 6 || b > 934) return 0
    for (j = i + 1; j <= signals; j++) {
      if (tier == on[j] && a < b_of[j] + 8 && a_of[j] < b + 8) return 0
      if (tier > on[j] && x_of[i] > a_of[j] - 3 && x_of[i] < b_of[j] + 3) return 0
      if (tier < on[j] && x_of[j] > a - 3 && x_of[j] < b + 3) return 0
    }
    return 1
  }
  function hoist(i, tier, side, long, a) {
    long = length(when " " x[of[i]]) + (x[of[i]] > 999)
    if (long < length(say[i])) long = length(say[i])
    wide[i] = 8 + 6.6 * long
    for (side = 0; side < 2; side++) {
      for (tier = 1; tier <= 3; tier++) {
        a = side ? x_of[i] - wide[i] : x_of[i]
        if (free(i, tier, a, a + wide[i])) {
          on[i] = tier; a_of[i] = a; b_of[i] = a + wide[i]; left_of[i] = side
          if (tier > tiers) tiers = tier
          return 1
        }
      }
    }
    return 0
  }
  # Does the line from triangle i to its neighbour j run through words beside i?
  function along(i, j) {
    if (j < 1 || j > NR || mask[i < j ? i : j]) return 0
    return 40 * (y[i] > y[j] ? y[i] - y[j] : y[j] - y[i]) < across(1) - across(0)
  }
  # Room for the value of triangle i on its right (side 1) or left (-1): no other value there, no reading near the edge, no line, no pole.
  function room(i, side, j, a, b) {
    a = across(x[i]) + (side > 0 ? 4 : -wide_value - 18); b = a + wide_value + 14
    if (a < left || b > right || along(i, i + side)) return 0
    for (j = 1; j <= values; j++) if (at_y[j] == y[i] && a < value_b[j] && value_a[j] < b) return 0
    for (j = 1; j <= NR; j++) {
      if (j == i || across(x[j]) < a || across(x[j]) > b) continue
      if (y[j] - y[i] < 0.5 && y[i] - y[j] < 0.5) return 0
      if (mask[j] && tiers && y[i] > 0) return 0
    }
    values++
    at_y[values] = y[i]; value_a[values] = a; value_b[values] = b
    return 1
  }
  { x[NR] = $1; mask[NR] = $2; reading[NR] = $3; y[NR] = ($3 - centre) / sigma; if (y[NR] > most) most = y[NR]; if (y[NR] < least) least = y[NR] }
  END {
    pad = 0.5 + 0.012 * (to - from)
    high = reach(most); low = -reach(-least)
    for (i = 1; i <= NR; i++) {
      shape[i] = mask[i] ? 13 : 7
      if (y[i] > 5) { shape[i] = 9; y[i] = 5.2 }
      if (y[i] < -5) { shape[i] = 11; y[i] = -5.2 }
      if (shape[i] == 9 || shape[i] == 11) far[++beyond] = i
      print x[i], y[i] > (work "/line")
      if (mask[i]) {
        print "" > (work "/line")
        signals++
        of[signals] = i; x_of[signals] = across(x[i])
        say[signals] = held(mask[i])
        for (j = 0; j < 8; j++) if (int(mask[i] / 2 ^ j) % 2) print j, x[i] > (work "/held")
      }
    }
    for (i = 1; i <= NR; i++) print x[i], y[i], shape[i] > (work (mask[i] ? "/signals" : "/quiet"))
    for (turn = 1; turn <= 2 && !tiers && signals <= 60; turn++) {
      when = turn == 1 ? "period" : "at"
      for (i = signals; i >= 1; i--) if (!hoist(i)) { tiers = 0; break }
    }
    for (i = 1; tiers && i <= signals; i++) print "flag", x[of[i]], y[of[i]], on[i], left_of[i] ? "right" : "left", when, say[i] > (work "/words")
    for (i = 1; i <= beyond && beyond <= 60; i++) {
      j = far[i]; long = length(reading[j])
      wide_value = 10 + 6.6 * (long + int((long - 1) / 3))
      side = room(j, 1) ? "left" : room(j, -1) ? "right" : ""
      if (side != "") print "value", x[j], y[j], 0, side, "-", reading[j] > (work "/words")
    }
    print pad, low, high, signals + 0, tiers + 0, beyond + 0
  }' "$work/rows")
touch "$work"/{quiet,signals,held,words}

# The words of every rule that holds somewhere in the picture, with its index from 0.
entries=()
while read -r i; do
  entries+=("rule $i: $(sed -n "$((i + 1))p" "$work/rules")")
  awk -v rule="$i" '$1 == rule { print $2 }' "$work/held" >"$work/held.$i"
done < <(cut -d' ' -f1 "$work/held" | sort -n -u)

# From above, in pixels: the head, the tiers of words, the readings, rows of rules, the axis of periods, the legend.
about="node $node, centre $(commas "$centre"), sigma $(commas "$sigma")"
if [ "$((to - from + 1))" = "$end" ]; then about+="; $(plural "$end" period)"
elif [ "$from" = "$to" ]; then about+="; period $(commas "$from") of $(commas "$end")"
else about+="; periods $(commas "$from") to $(commas "$to") of $(commas "$end")"; fi
if [ "$signals" = 0 ]; then about+=", no signal"; else about+=", $(plural "$signals" signal)"; fi
rows=0 columns=3 legend_rows=1
for said in "${entries[@]}"; do [ "${#said}" -le 36 ] || columns=2; done
if [ "$tiers" = 0 ]; then rows=${#entries[@]}; else legend_rows=$((1 + (${#entries[@]} + columns - 1) / columns)); fi
head=$((62 + 33 * tiers))
foot=$((82 + 22 * legend_rows + (signals ? 20 : 0)))
read -r step tall < <(awk -v low="$low" -v high="$high" 'BEGIN { s = 330 / (high - low); if (s < 34) s = 34; printf "%.4f %d\n", s, s * (high - low) }')
deep=$((rows ? 33 * rows + 14 : 0))
height=$((head + tall + deep + foot))

# The more readings the smaller: the size of a reading's mark, of all other marks, and the width of the line.
size=0.65 signal_size=1.15 stroke=1.2
for more in '60 0.45 0.9 1' '150 0.32 0.75 0.9' '400 0.22 0.6 0.7' '1500 0.12 0.5 0.5'; do
  read -r i share signal_share thin <<<"$more"
  if [ $((to - from)) -ge "$i" ]; then size=$share signal_size=$signal_share stroke=$thin; fi
done

{
  start_terminal 940 "$height"
  echo "set label 1 $(quoted "$title") at screen 0.5,1-22.0/$height center noenhanced font ',$big' textcolor rgb '#222222'"
  echo "set label 2 $(quoted "$about") at screen 0.5,1-46.0/$height center noenhanced font ',$small' textcolor rgb '#555555'"
  echo "set lmargin at screen $left.0/940; set rmargin at screen $right.0/940"
  echo "set tmargin at screen 1-$head.0/$height; set bmargin at screen $foot.0/$height"
  echo "set border 1; set grid xtics noytics; unset key"
  echo "set xrange [$from-$pad:$to+$pad]; set yrange [$low-$deep/$step:$high]"
  echo "set xlabel 'period' textcolor rgb '#222222'"
  tic() { # words, place, 1 for a minor one
    printf "%s'%s' %d %s" "$sep" "$1" "$2" "${3:-}"
    sep=', '
  }
  sep='set ytics ('
  for i in -3 -2 -1 0 1 2 3; do tic "${limit[i + 3]}" "$i"; done
  echo ')'
  sep='set xtics ('
  every=1 turn=5
  while [ $((to - from)) -gt $((every * (to < 1000 ? 20 : 15))) ]; do
    every=$((every * turn))
    turn=$((10 / turn))
  done
  start=$(((from + every - 1) / every * every))
  if [ $((3 * (start - from))) -gt $every ]; then tic "$(commas "$from")" "$from"; fi
  for ((i = start; i <= to; i += every)); do tic "$(commas "$i")" "$i"; done
  if [ $((to - from)) -le 100 ]; then
    for ((i = from; i <= to; i++)); do tic '' "$i" 1; done
  fi
  echo ')'
  echo "set label 3 'reading' at screen 18.0/940,first ($low+$high)/2 center rotate by 90 textcolor rgb '#222222'"
  echo "set arrow 1 from graph 0,first $low to graph 0,first $high nohead lc rgb '#555555'"

  # the zones, and their limits
  band() { echo "set object $1 rectangle from graph 0,first $2 to graph 1,first $3 behind fs solid noborder fc rgb '$4'"; }
  band 1 1 2 '#F1F5F9'
  band 2 -2 -1 '#F1F5F9'
  band 3 2 3 '#E1EAF2'
  band 4 -3 -2 '#E1EAF2'
  band 5 3 "$high" '#FBE8DC'
  band 6 "$low" -3 '#FBE8DC'
  n=10
  beside() { # y, words, style
    n=$((n + 1))
    echo "set label $n '$2' at screen ($right.0+9)/940,first $1 left noenhanced $3"
  }
  for i in -3 -2 -1 0 1 2 3; do
    case $i in
      0) style="lc rgb '#555555' lw 1.4" said='centre, C0' ;;
      3 | -3) style="lc rgb '${colours[1]}' lw 1 dt (6,4)" ;;
      *) style="lc rgb '#AEBBC7' lw 1" ;;
    esac
    [ "$i" = 0 ] || said="$(printf '%+d' "$i") sigma"
    echo "set arrow $((i + 10)) from graph 0,first $i to graph 1,first $i nohead back $style"
    beside "$i" "$said" "font ',$smaller' textcolor rgb '#777777'"
  done
  name="textcolor rgb '#222222'"
  i=0
  for said in A2 B2 C2 C1 B1 A1; do
    beside "$i-2.5" "$said" "$name"
    i=$((i + 1))
  done
  beside "(3+$high)/2" S "$name"
  beside "($low-3)/2" S "$name"

  # words: on a pole above a signal, or beside a triangle at the edge
  arrow=100
  while read -r what x y tier side when said; do
    n=$((n + 2))
    gap=$([ "$what" = flag ] && echo 0.5 || echo 1.2)
    [ "$side" = left ] || gap=-$gap
    gap="offset $gap,0"
    if [ "$what" = flag ]; then
      arrow=$((arrow + 1))
      style="$side noenhanced font ',$small' $gap textcolor rgb"
      echo "set arrow $arrow from $x,$y to $x,$high+$((33 * tier - 2))/$step nohead back lc rgb '${colours[1]}' lw 1.2 dt solid"
      echo "set label $n '$said' at $x,$high+$((33 * tier - 9))/$step $style '#222222'"
      echo "set label $((n + 1)) '$when $(commas "$x")' at $x,$high+$((33 * tier - 24))/$step $style '#555555'"
    else
      echo "set label $n '$(commas "$said")' at $x,$y $side noenhanced front font ',$small' $gap textcolor rgb '#333333'"
    fi
  done <"$work/words"

  # rows of rules
  parts=()
  for ((i = 0; i < rows; i++)); do
    n=$((n + 2))
    rule=${entries[i]%%:*}
    base="$low-$((33 * i + 36))/$step"
    echo "set arrow $((200 + i)) from graph 0,first $base to graph 1,first $base nohead back lc rgb '#CCCCCC' lw 1"
    echo "set label $n '${entries[i]}' at graph 0.004,first $base+14/$step left noenhanced font ',$small' textcolor rgb '#222222'"
    beside "$base" "$(plural "$(wc -l <"$work/held.${rule#rule }")" signal)" "font ',$smaller' textcolor rgb '#777777'"
    parts+=(", '$work/held.${rule#rule }' using 1:($base-4/$step):(0):(9/$step) with vectors nohead lw 1.2 lc rgb '${colours[1]}' notitle")
  done

  # the legend: a sample and a word for all that is drawn, then the rules
  {
    echo "reading reading"
    [ "$signals" = 0 ] || echo "signal signal: it clears the chart, a new line starts behind it"
    [ "$beyond" = 0 ] || echo "beyond over 5 sigma off the centre"
  } | awk -v h="$height" -v y="$((foot - 88))" -v mark="$mark" -v reading="${colours[0]}" -v signal="${colours[1]}" '
    function spot(dx) { return sprintf("screen %.4f,%.4f", (x + dx) / 940, y / h) }
    function words(text, dx, style) { print "set label " (1000 + ++labels) " \047" text "\047 at " spot(dx) " " style }
    function point(dx, type, size, rgb) { words("", dx, "point pt " type " ps " mark * size " lc rgb \047" rgb "\047") }
    { what[NR] = $1; word[NR] = substr($0, length($1) + 2); wide[NR] = 33 + 6.3 * length(word[NR]) + 24; total += wide[NR] }
    END {
      x = (940 - total + 24) / 2
      for (i = 1; i <= NR; i++) {
        if (what[i] == "reading") {
          print "set arrow 1000 from " spot(0) " to " spot(26) " nohead lw 1.2 dt solid lc rgb \047" reading "\047"
          point(13, 7, 0.65, reading)
        } else if (what[i] == "signal") point(16, 13, 1.15, signal)
        else { point(8, 9, 0.9, "#777777"); point(20, 11, 0.9, "#777777") }
        words(word[i], 33, "left noenhanced textcolor rgb \047#222222\047")
        x += wide[i]
      }
    }'
  if [ "$tiers" != 0 ]; then
    printf '%s\n' "${entries[@]}" | awk -v h="$height" -v y="$((foot - 88))" -v columns="$columns" '
      { i = (NR - 1) % columns; word[NR - 1] = $0; if (34 + 6.3 * length($0) > wide[i]) wide[i] = 34 + 6.3 * length($0) }
      END {
        for (i = 0; i < columns; i++) total += wide[i]
        for (i = 0; i < NR; i++) {
          if (i % columns == 0) { x = (940 - total + 34) / 2; y -= 22 }
          printf "set label %d \047%s\047 at screen %.4f,%.4f left noenhanced textcolor rgb \047#222222\047\n", 1100 + i, word[i], x / 940, y / h
          x += wide[i % columns]
        }
      }'
  fi
  if [ "$signals" != 0 ]; then
    echo "set label 1200 'rules are counted from 0, in the order of the text' at screen 0.5,16.0/$height center font ',$small' textcolor rgb '#555555'"
  fi

  printf "plot '%s' with lines lc rgb '%s' lw %s notitle" "$work/line" "${colours[0]}" "$stroke"
  points() { # file, colour
    [ ! -s "$work/$1" ] || printf ", '%s' using 1:2:(%s*(\$3 == 7 ? %s : %s)):3 with points ps variable pt variable lc rgb '%s' notitle" \
      "$work/$1" "$mark" "$size" "$signal_size" "$2"
  }
  points quiet "${colours[0]}"
  points signals "${colours[1]}"
  printf '%s' "${parts[@]}"
  echo
} >"$work/script"
finish "$out" "Monitored series"
