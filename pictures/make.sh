#!/usr/bin/env bash
# Makes the four pictures of the README: three from the stored texts and outputs in examples/, and one from the rules there with the built
# programs. Needs gnuplot (Debian: package gnuplot-nox).
set -euo pipefail
cd "$(dirname "${BASH_SOURCE[0]}")/.."

pictures/draw.sh distribution pictures/distribution.svg \
  "Western Electric, in control=examples/western-electric-in-control.out" \
  "Western Electric, shifted by 1 sigma=examples/western-electric-shift-1.out"

pictures/draw.sh boxes pictures/boxes.svg \
  "R1 alone, in control=examples/shewhart-in-control.out" \
  "Duncan, in control=examples/duncan-in-control.out" \
  "Western Electric, in control=examples/western-electric-in-control.out" \
  "R1 alone, shifted by 1 sigma=examples/shewhart-shift-1.out" \
  "Duncan, shifted by 1 sigma=examples/duncan-shift-1.out" \
  "Western Electric, shifted by 1 sigma=examples/western-electric-shift-1.out"

pictures/characteristic.sh pictures/characteristic.svg 5 \
  "R1 alone=examples/shewhart-in-control.txt" \
  "Duncan=examples/duncan-in-control.txt" \
  "Western Electric=examples/western-electric-in-control.txt"

pictures/series.sh pictures/series.svg examples/monitor-shift.txt examples/monitor-shift.out

ls pictures/distribution.svg pictures/boxes.svg pictures/characteristic.svg pictures/series.svg
