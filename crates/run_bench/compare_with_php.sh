#!/usr/bin/env bash
# Runs the scripts of data/scripts.txt by `php` and by `phpsa run`, each for so many times its turns (1,000 where no number
# is given) and for twice as many, and prints the processor seconds of each, what the double takes, and how many times php's
# the program's time is. Needs php and the built program: ./phpsa --build. No test of the gate runs this.

here=$(cd -- "$(dirname -- "$0")" && pwd)
program=${PROGRAM:-$here/../phpsa/out/phpsa}
times=${1:-1000}
command -v php >/dev/null || { echo 'php is not installed' >&2; exit 1; }
[ -x "$program" ] || { echo 'build the program first: ./phpsa --build' >&2; exit 1; }
room=$(mktemp -d)
trap 'rm -rf "$room"' EXIT

# seconds WORDS..: the processor seconds of a run that prints `d` last
seconds() {
  local TIMEFORMAT='%U %S' said
  said=$({ time "$@" >"$room/out" 2>"$room/err"; } 2>&1 | awk '{ printf "%.3f", $1 + $2 }')
  [ "$(tail -c 1 "$room/out")" = d ] && echo "$said" || echo none
}

printf '%-34s %9s %8s %8s %8s %6s\n' script turns php phpsa double ratio
while IFS= read -r line; do
  head=${line%%: *} script=${line#*: }
  turns=$((${head%% *} * times)) name=${head#* }
  printf '%s' "${script//N/$turns}" >"$room/once.php"
  printf '%s' "${script//N/$((turns * 2))}" >"$room/twice.php"
  theirs=$(seconds php -d memory_limit=-1 "$room/once.php")
  ours=$(cd "$room" && seconds "$program" run once.php --steps 99999999)
  double=$(cd "$room" && seconds "$program" run twice.php --steps 99999999)
  printf '%-34s %9d %8s %8s %8s %6s\n' "$name" "$turns" "$theirs" "$ours" "$double" \
    "$(awk -v a="$ours" -v b="$theirs" 'BEGIN { if (a == "none" || b == "none") print "-"; else printf "%.1f", a / (b > 0 ? b : 0.001) }')"
done <"$here/data/scripts.txt"
