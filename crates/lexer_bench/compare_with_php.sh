#!/bin/sh
# Reads files of about 1,048,576 bytes of one kind each with `php -l` and with `phpsa check`, and prints the
# processor time of each in milliseconds, the least of some turns, and how many times the one is the other.
# Give the program phpsa as the first word, and the number of turns as the second (5 if left out).
# It needs php, perl and GNU time as /usr/bin/time.
set -eu
program=$1
turns=${2:-5}
folder=$(mktemp -d)
trap 'rm -rf "$folder"' EXIT

# A file: the head, then the middle as often as it fits, then the tail.
make_file() {
  perl -e '
    my ($name, $head, $middle, $tail) = map { s/\\n/\n/gr } @ARGV;
    my $times = int((1048576 - length($head) - length($tail)) / length($middle));
    open(my $out, ">", $name) or die; print $out $head, $middle x $times, $tail;' \
    "$folder/$1.php" "$2" "$3" "$4"
}

nest=$(perl -e 'print "\$x=", "(" x 150, "1", ")" x 150, ";\\n"')
make_file page '' '<li id="i<?= $key ?>"><a href="?id=<?= $item["id"] ?>"><?= htmlspecialchars($item["name"]) ?></a></li>\n<?php if ($a): ?>\n  <p>text of a page, as most of it is</p>\n<?php endif; ?>\n' ''
make_file statements '<?php ' '$abc = $def + 12;\n' ''
make_file templates '<?php ' 'echo "<p class=\"a\">$name[first] and {$row['"'x'"']}</p>";\n' ''
make_file calls '<?php ' 'echo htmlspecialchars($row["name"]), "x";\n' ''
make_file nests '<?php ' "$nest" ''
make_file blocks '<?php ' '{}' ''
make_file arguments '<?php f(' '$a, ' '1);'

# The least processor time of a command over the turns, in milliseconds.
least() {
  best=
  for _ in $(seq "$turns"); do
    /usr/bin/time -o "$folder/time" -f '%U %S' "$@" >"$folder/said" 2>&1 || true
    taken=$(tail -n 1 "$folder/time" | awk '{ printf "%.0f", ($1 + $2) * 1000 }')
    if [ -z "$best" ] || [ "$taken" -lt "$best" ]; then best=$taken; fi
  done
  echo "$best"
}

printf '%-12s %8s %8s %6s\n' file php phpsa times
for kind in page statements templates calls nests blocks arguments; do
  theirs=$(least php -l "$folder/$kind.php")
  ours=$(least "$program" check "$folder/$kind.php" --dtd mini)
  said=$(tail -n 1 "$folder/said" | sed "s|$folder/||")
  printf '%-12s %8s %8s %6s   %s\n' "$kind" "$theirs" "$ours" "$(awk "BEGIN { printf \"%.1f\", $ours / $theirs }")" "$said"
done
