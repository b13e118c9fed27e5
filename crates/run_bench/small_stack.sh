#!/usr/bin/env bash
# Runs scripts with 256 open calls under ever smaller stacks of the machine, in KiB, and prints which of them print what
# they should: calls of a flat function, of one in nested `if`s, of one that calls within a long chain of operators, and of
# one whose body of five files is 950 `if`s high; and a 257th call, which is refused. Needs the built program: ./phpsa --build. No test of the gate runs this: a test
# cannot set the stack of its own process.

top=$(cd -- "$(dirname -- "$0")/../.." && pwd)
program=$top/crates/phpsa/out/phpsa
[ -x "$program" ] || { echo 'build the program first: ./phpsa --build' >&2; exit 1; }
room=$(mktemp -d)
trap 'rm -rf "$room"' EXIT
cd "$room" || exit 1

# times N TEXT: the text N times
times() { awk -v most="$1" -v text="$2" 'BEGIN { for (n = 0; n < most; n++) printf "%s", text }'; }

# the scripts: each makes 256 calls, of which all are open at once, and prints `k`
flat() { printf '<?php function f($n) { if ($n > 1) { f($n - 1); } } f(256); echo "k";'; }
nested() { printf '<?php function f($n) { %sif ($n > 1) f($n - 1); } f(256); echo "k";' "$(times "$1" 'if (true) ')"; }
chained() { printf '<?php function f($n) { return $n > 1 ? %sf($n - 1) : "k"; } echo f(256);' "$(times "$1" '!!')"; }
included() { printf '<?php function f($n) { %sinclude "part1.php"; } f(256); echo "k";' "$(times "$1" 'if (true) ')"; }
deep() { printf '<?php function f($n) { if ($n > 1) { f($n - 1); } } f(257);'; }

# row KIND STATUS PRINTED [SIZE]: for each stack, whether the script ends so
row() {
  "$1" "${4:-}" >"$1.php"
  printf '%-8s %4s' "$1" "${4:-}"
  for stack in 8192 1024 512 256 128; do
    out=$( (ulimit -s "$stack"; "$program" run "$1.php") 2>err)
    status=$?
    if [ "$status" = "$2" ] && [ "$out" = "$3" ]; then said=so; else said="status $status"; fi
    printf '   %5d KiB: %s' "$stack" "$said"
  done
  printf '\n'
}

row flat 0 k
row nested 0 k 100
row nested 0 k 190
row chained 0 1 95
for n in 1 2 3 4; do
  printf '<?php %s%s' "$(times 190 'if (true) ')" "$([ "$n" = 4 ] && echo 'if ($n > 1) f($n - 1);' || echo "include 'part$((n + 1)).php';")" >"part$n.php"
done
row included 0 k 190
row deep 13 ''
