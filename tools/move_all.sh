#!/bin/sh
# Theorems of the crates whose must-fail edits change specs/ go to proofs/, so that an edit of a definition is refused by them (tools/move_theorems.py).
# usage: sh tools/move_all.sh [move|check]     at the top, with everything committed. A crate that is moved already is left alone.
# move: the files alone. check: each crate in the order of crates.txt, with the imports that changed (takes long). Without a word: both.
set -e
what=${1:-all}

move() {
  name=$1
  echo "== $name"
  python3 tools/move_theorems.py "$@" || [ -e "crates/$name/proofs/Lib.antt" ]
}

if [ "$what" != check ]; then
  move rules Ladder,RunOfBits
  move window keep=Total
  move text keep=Put
  move program_input keep=Feeding
  move rowlist_text
  move program_rule keep=Buffer,Outcomes,Whole
  move mps
  move printer_text
  move headlines
  move sepia_limits keep=FirstNode,Kinds
  sed -i 's|crates/headlines/specs/Headlines\.antt|crates/headlines/proofs/Headlines.antt|g' docs/*.md CONTRIBUTING.md README.md
fi

if [ "$what" != move ]; then
  for c in $(sed -n 's/^\([a-z_0-9]*\)[^#]*:.*/\1/p' crates.txt); do
    echo "== $c"
    (cd "crates/$c" && rt check --fix-imports | tail -1 && rt fmt > /dev/null)
  done
fi
