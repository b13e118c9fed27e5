#!/usr/bin/env bash
# Runs the program on inputs that are made to want much of it: definitions whose content models want many states, pairs or
# references, nests at every limit, files that are no files, and names that are no words. Prints for each call its status, its
# processor seconds and the most memory that it took. A call fails where its status is none of those that are named with it,
# where it takes over 10 seconds or over 1 GB, or where it does not end within 1 MiB of stack. The program is the one that
# ./phpsa would run, built first where there is none. No test of the gate runs this.
#
# usage: hostile.sh [STACK]    each call has STACK kilobytes of stack (1024 by default)

top=$(cd -- "$(dirname -- "$0")/../.." && pwd)
program=$("$top/phpsa" --program) || exit
stack=${1:-1024}
seconds=10
kilobytes=1048576
room=$(mktemp -d)
trap 'rm -rf "$room"' EXIT
cd "$room" || exit 1
mkdir calls && cd calls || exit 1
bad=0

# times COUNT TEXT: the text so often, with each @ replaced by the number, from 0
times() {
  awk -v count="$1" -v text="$2" 'BEGIN {
    parts = split(text, part, "@")
    for (n = 0; n < count; n++) {
      printf "%s", part[1]
      for (p = 2; p <= parts; p++) printf "%d%s", n, part[p]
    }
  }'
}

# row STATUSES WORDS..: the call of these words, which has to end with one of the statuses, as in 3,7
row() {
  local wanted=$1 status spent most
  shift
  (
    ulimit -s "$stack" -t $((seconds + 1)) -v $((2 * kilobytes))
    exec /usr/bin/time -f '%U %S %M' -o ../spent timeout 120 "$program" "$@" >../out 2>../err </dev/null
  ) 2>/dev/null
  status=$?
  read -r spent most < <(awk 'END { printf "%.2f %d\n", $1 + $2, $3 }' ../spent)
  local said=ok
  case ,$wanted, in *,"$status",*) ;; *) said="the status is none of $wanted" ;; esac
  [ "$status" -lt 128 ] || said="ended by the signal $((status - 128))"
  [ "$status" != 124 ] || said='no end in two minutes'
  awk -v spent="$spent" -v most="$seconds" 'BEGIN { exit spent <= most }' && said="over $seconds seconds"
  [ "$most" -le "$kilobytes" ] || said="over $kilobytes kilobytes"
  printf '%-52.52s status %3d %7.2f s %6d MB  %s\n' "$*" "$status" "$spent" $((most / 1024)) "$said"
  [ "$said" = ok ] || bad=$((bad + 1))
}

# model NAME MODEL: the definition of this name, in which html has this content model over the empty elements a, b and c
model() { printf '<!ELEMENT html %s><!ELEMENT a EMPTY><!ELEMENT b EMPTY><!ELEMENT c EMPTY>' "$2" >"$1"; }

printf '<html/>' >page.php

# Content models: states double with each item, pairs grow with the square of the items, and nests with all three.
model states.dtd "((a|b)*,a$(times 40 ',(a|b)'))"
model more_states.dtd "((a|b|c)*,(a|b)$(times 80 ',(a|b)'))"
model pairs.dtd "(a$(times 3000 '|a'))*"
model optional.dtd "(a?$(times 3000 ',a?'))"
model stars.dtd "$(times 199 '(')a$(times 199 ')*')"
model both.dtd "$(times 150 '((a|b)*,')a$(times 150 ')*')"
for definition in states more_states pairs optional stars both; do
  row 0,1,10 page page.php --dtd "$definition.dtd"
done
{
  printf '<!ELEMENT html (a)><!ELEMENT a EMPTY>'
  times 900 "<!ATTLIST a x@ (y0|y1|y2|y3|y4|y5|y6|y7) 'y0'>"
} >attributes.dtd
row 10 page page.php --dtd attributes.dtd
{
  printf '<!ELEMENT html EMPTY><!ATTLIST html x (y'
  times 100000 '|y@'
  printf ") 'y'>"
} >choices.dtd
row 0,1,10 page page.php --dtd choices.dtd

# Entities: each twice the one before, one within the other, a file within a file, and one file for many references.
printf '%s<!ELEMENT html EMPTY>%%e31;' "<!ENTITY % e0 ' '>$(awk 'BEGIN { for (n = 1; n < 32; n++) printf "<!ENTITY %% e%d \"&#37;e%d;&#37;e%d;\">", n, n - 1, n - 1 }')" >doubled.dtd
row 10 page page.php --dtd doubled.dtd
printf '%s%%e20000;' "<!ENTITY % e0 '<!ELEMENT html EMPTY>'>$(awk 'BEGIN { for (n = 1; n <= 20000; n++) printf "<!ENTITY %% e%d \"&#37;e%d;\">", n, n - 1 }')" >within.dtd
row 0,1,10 page page.php --dtd within.dtd
mkdir folder
for ((n = 0; n < 300; n++)); do
  printf '<!ENTITY %% x%d SYSTEM "%d.dtd">%%x%d;' "$n" $((n + 1)) "$n" >folder/$n.dtd
done
printf '<!ELEMENT html EMPTY>' >folder/300.dtd
row 0,1,3,10 page page.php --dtd folder/0.dtd
head -c 1048000 /dev/zero | tr '\0' ' ' >wide.dtd
printf '<!ELEMENT html EMPTY><!ENTITY %% w SYSTEM "wide.dtd">%s' "$(times 200000 '%w;')" >often.dtd
row 10 page page.php --dtd often.dtd

# Nests at the limits: statements and expressions 200 high, brackets, programs 1,000 high by their includes, also with an
# expression 190 high at the bottom, 256 files; and a path of 100,000 keys.
nested() { printf '<?php %s%s%s' "$(times "$2" "$3")" "$4" "$(times "$2" "$5")" >"$1"; }
nested if.php 196 "if (isset(\$_GET['a'])) { " "echo 'a'; " '} '
nested while.php 196 "while (isset(\$_GET['a'])) { " "echo 'a'; " '} '
nested else.php 98 "if (isset(\$_GET['a'])) { echo 'b'; } else { foreach (\$_GET as \$k => \$v) { " "echo 'a'; " '} } '
printf '<?php echo %s"a"%s;' "$(times 190 'strtoupper(')" "$(times 190 ')')" >calls.php
printf "<?php echo %s\$_GET['a']%s;" "$(times 190 "('b' . ")" "$(times 190 ')')" >joins.php
printf "<?php echo %s\$_GET['a'];" "$(times 195 '!')" >nots.php
printf "<?php \$a%s = 'b'; echo 'c';" "$(times 190 "['k']")" >path.php
# chain NAME FILES COUNT OPENER INSIDE CLOSER: so many files with 196 openers each, each around the include of the next, and
# behind them a file with COUNT of them around INSIDE
chain() {
  local n
  for ((n = 1; n <= $2; n++)); do nested "$1$n.php" 196 "$4" "include '$1$((n + 1)).php'; " "$6"; done
  nested "$1$n.php" "$3" "$4" "$5" "$6"
}
chain deep 5 16 "if (isset(\$_GET['a'])) { " "echo 'a'; " '} '
chain turns 5 16 "while (isset(\$_GET['a'])) { " "echo 'a'; " '} '
chain until 5 16 'do { ' "echo 'a'; " "} while (isset(\$_GET['a'])); "
chain count 5 17 'for ($i = 0; $i < 1; $i++) { ' "echo 'a'; " '} '
chain each 5 17 'foreach ($_GET as $k => $v) { ' "echo 'a'; " '} '
deeper() { chain "$1" 4 0 "if (isset(\$_GET['a'])) { " "$2" '} '; }
deeper and "echo 'a'$(times 190 " && 'a'");"
deeper there "echo \$a$(times 190 ' ?? $a');"
deeper choice "echo $(times 190 '$a ? $a : (')'a'$(times 190 ')');"
deeper call "echo $(times 190 'strtoupper(')'a'$(times 190 ')');"
deeper array "\$a = $(times 190 '[')'a'$(times 190 ']');"
deeper member "echo \$a$(times 190 "['k']");"
deeper update "$(times 95 '$a[')1$(times 95 '] .= 1');"
for ((n = 1; n < 250; n++)); do
  nested "many$n.php" 2 "if (isset(\$_GET['a'])) { " "$([ $n = 249 ] && printf "echo 'a'; " || printf "include 'many%d.php'; " $((n + 1)))" '} '
done
printf '<?php $a%s = 1;' "$(times 100000 '[1]')" >long.php
for script in if while else calls joins nots path deep1 turns1 until1 count1 each1 and1 there1 choice1 call1 array1 member1 update1 many1 long; do
  for command in check grammar run; do
    row 0,1,2,3,4,11 $command $script.php
  done
done
row 0 make 1000 --check

# Runs: 256 calls open at once within long expressions, and arrays 1,000 deep that are copied, compared, written and let go.
printf '<?php function f($n) { if ($n > 0) { return %sf($n - 1)%s; } return "b"; } echo strlen(f(254));' "$(times 150 '(')" "$(times 150 ' . "a")')" >calls256.php
row 0 run calls256.php
cat >arrays.php <<'PHP'
<?php
$a = [];
for ($i = 0; $i < 999; $i++) {
  $a = [$a];
}
$b = $a;
echo $a === $b ? 'same' : 'other';
$b[0][0][0] = 'x';
echo $a === $b ? 'same' : 'other', count($a);
$a = 1;
PHP
row 0 run arrays.php
printf '<?php $x = $_GET; $y = $_POST; echo $x === $y ? "same" : "other"; $x["a"]["a"] = 1; echo count($x);' >request.php
printf '{"get":%s{}%s,"post":%s{}%s}' "$(times 125 '{"a":')" "$(times 125 '}')" "$(times 125 '{"a":')" "$(times 125 '}')" >request.json
row 0 run request.php --request request.json

# Files of stubs: a chain of calls through them, one function many times over, those of the script itself, which are all passed over, a body
# as high as may be, an include behind much else, and what is no file or has no end.
printf '<?php echo f0();' >asks.php
printf '<?php %sfunction f4000() { return "a"; }' "$(awk 'BEGIN { for (n = 0; n < 4000; n++) printf "function f%d() { return f%d(); } ", n, n + 1 }')" >chained.php
printf '<?php %s' "$(times 40000 'function f0() { } ')" >twice.php
printf '<?php %s echo f0();' "$(times 20000 'function f@() { return 1; } ')" >own.php
nested high.php 190 "if (isset(\$_GET['a'])) { " "return 'a'; " '} '
printf '<?php function f0() { %s }' "$(tail -c +7 high.php)" >high_stubs.php
printf '<?php %sinclude "page.php";' "$(times 40000 'echo 1; ')" >includes.php
for stubs in chained twice own high_stubs includes; do
  for command in check grammar run; do
    row 0,1,2,3,11,13 $command asks.php --stubs $stubs.php
  done
done
for command in check grammar run; do
  row 0,1,2,11 $command own.php --stubs own.php
done
row 11 check asks.php --stubs /dev/zero
row 7 check asks.php --stubs folder

# Here is the place of what is bounded elsewhere: one count of all work of a check, and the units of runs by the size of results.

# Lists: a thousand names of one script, of scripts that are each too long, and of none.
times 1000 'page.php\n' >same.list
head -c 1048577 /dev/zero >wide.php
for ((n = 0; n < 100; n++)); do ln -s wide.php "wide$n.php"; done
times 100 'wide@.php\n' >wide.list
times 1000 'missing@.php\n' >missing.list
for list in same wide missing; do
  row 0,1,15 site $list.list --dtd mini
done

# Pages: elements nested 70,000 deep.
printf '%s%s' "$(times 70000 '<html>')" "$(times 70000 '</html>')" >elements.php
printf '<!ELEMENT html (html*)>' >elements.dtd
row 0 page elements.php --dtd elements.dtd

# Files that are none, that give no end, or that lie elsewhere, and names that are no words.
mkfifo pipe
for name in /dev/zero pipe folder /etc/passwd ../out ./././if.php folder/../if.php; do
  printf "<?php include '%s'; echo 'a';" "$name" >include.php
  printf '<!ENTITY %% f SYSTEM "%s">%%f;' "$name" >name.dtd
  row 0,1,3,6,7,11 check include.php
  row 0,1,3,6,7,10,11 page page.php --dtd name.dtd
done
printf "<?php include '%s'; echo 'a';" "$(printf 'a\033[2Jb\nphpsa: c\377')" >include.php
row 3,6 check include.php
printf "<?php include '%s'; echo 'a';" "$(times 100000 'n')" >include.php
row 3,6,7 check include.php
row 6,7 check "$(times 30000 'n')"
row 3,7,11 check /dev/zero
row 11 check folder

[ "$bad" = 0 ]
