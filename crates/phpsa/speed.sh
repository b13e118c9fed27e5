#!/usr/bin/env bash
# Prints how long `phpsa check` takes for generated scripts of each kind, for a size and for its double, and the ratio of
# the two, in processor seconds of one run, and how many times that `check --shortest` takes for the double; the same for
# `phpsa match` with a pattern of 40 positions; and for a page of text the ratio to `phpsa page` on the same page. Runs
# the program that ./phpsa would run, and builds it where there is none. No test of the gate runs this.

top=$(cd -- "$(dirname -- "$0")/../.." && pwd)
program=$("$top/phpsa" --program) || exit
room=$(mktemp -d)
trap 'rm -rf "$room"' EXIT
cd "$room" || exit 1

front='<!DOCTYPE html PUBLIC "-//W3C//DTD XHTML 1.0 Strict//EN" "http://www.w3.org/TR/xhtml1/DTD/xhtml1-strict.dtd"><html xmlns="http://www.w3.org/1999/xhtml"><head><title>t</title></head><body>'
back='</body></html>'

# lines N TEXT: the text N times, with each @ replaced by the number of the line
lines() { seq 1 "$1" | while read -r n; do printf '%s' "${2//@/$n}"; done; }

# the scripts: each writes one with so many of its kind
branches() { printf '%s<p>a%s</p>%s' "$front" "$(lines "$1" "<?php if (isset(\$_GET['a@'])) { echo 'x'; } ?>")" "$back"; }
loops() { printf '%s<div>%s</div>%s' "$front" "$(lines "$1" "<?php while (isset(\$_GET['a@'])) { echo '<p>x</p>'; } ?>")" "$back"; }
escaped() { printf '%s<p>%s</p>%s' "$front" "$(lines "$1" "<?= htmlspecialchars(\$_GET['a@'] ?? '') ?>")" "$back"; }
members() {
  printf '<?php $a = [];\n%s?>%s<p>%s</p>%s' "$(lines "$1" "\$a['k@'] = 'v';")" "$front" "$(lines "$1" "<?= \$a['k@'] ?>")" "$back"
}
variables() {
  printf '<?php %s%s?>%s<p>%s</p>%s' "$(lines "$1" "\$x@ = 'a';")" "$(lines "$1" "if (isset(\$_GET['b@'])) { \$x@ = 'b'; }")" \
    "$front" "$(lines "$1" '<?= $x@ ?>')" "$back"
}
calls() {
  printf '<?php function f0() { echo "<b>x</b>"; }\n%s?>%s<p><?php f%s(); ?></p>%s' \
    "$(awk -v most="$1" 'BEGIN { for (n = 1; n <= most; n++) printf "function f%d() { f%d(); f%d(); }\n", n, n - 1, n - 1 }')" \
    "$front" "$1" "$back"
}
text() { printf '%s<p>%s</p>%s' "$front" "$(head -c "$1" /dev/zero | tr '\0' 'a')" "$back"; }
made() { "$program" make "$1"; }

# seconds WORDS..: the processor seconds of a run, whatever its answer
seconds() { local TIMEFORMAT='%U %S'; { time "$program" "$@" >out 2>err; } 2>&1 | awk '{ printf "%.2f", $1 + $2 }'; }

# megabytes WORDS..: the most memory of a run, in megabytes, where GNU time is there to tell it
megabytes() { /usr/bin/time -f %M "$program" "$@" 2>&1 >out | awk 'END { if ($1 > 0) printf "%d", $1 / 1024; else printf "?" }'; }

# row KIND SIZE: the seconds for the size and for its double, and their ratio; those with the flag for the double, and that ratio
row() {
  "$1" "$2" >one.php
  "$1" $(($2 * 2)) >two.php
  local one two short
  one=$(seconds check one.php)
  two=$(seconds check two.php)
  short=$(seconds check two.php --shortest)
  awk -v kind="$1" -v size="$2" -v one="$one" -v two="$two" -v short="$short" \
    'BEGIN { printf "%-10s %7d %8.2f s   %7d %8.2f s   ratio %.1f   shortest %8.2f s   ratio %.1f\n", \
      kind, size, one, 2 * size, two, two / (one > 0 ? one : 0.01), short, short / (two > 0 ? two : 0.01) }'
}

# match_row SIZE: the same of `match` for generated scripts of so many functions, whose pages all fit
match_row() {
  made "$1" >one.php
  made $(($1 * 2)) >two.php
  printf '%s' '[^<]*(<(/?(div|p|html|head|title|body|h1|ul|li|em|br|hr)|!)[^>]*>[^<]*)*' >pattern
  local one two
  one=$(seconds match one.php --policy pattern)
  two=$(seconds match two.php --policy pattern)
  awk -v size="$1" -v one="$one" -v two="$two" -v answer="$(head -c 9 out)" \
    'BEGIN { printf "match      %7d %8.2f s   %7d %8.2f s   ratio %.1f   %s\n", \
      size, one, 2 * size, two, two / (one > 0 ? one : 0.01), answer }'
}

row made 100
row made 500
row branches 500
row loops 250
row escaped 500
row escaped 5000
row members 100
row variables 40
row calls 125
row text 262144
match_row 100
match_row 250
match_row 500

text 1048000 >page.php
page=$(seconds page page.php)
check=$(seconds check page.php)
awk -v page="$page" -v check="$check" -v most="$(megabytes check page.php)" \
  'BEGIN { printf "a page of some 1 MiB: page %.2f s, check %.2f s and %s MB, ratio %.1f\n", page, check, most, check / (page > 0 ? page : 0.01) }'
