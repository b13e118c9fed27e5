#!/usr/bin/env bash
# Runs the program on eight calls, with a script, a run, a generated script, a page of three files, a page, a list of scripts and a file of
# stubs, and refuses each of their requests for memory in turn: the Nth call of malloc or realloc gives none. The status has to be 12 then, with the
# front of the usual output, or 16 with none where the words of the call had no memory, or everything is as usual. The program
# is the one that ./phpsa would run, built first where there is none. Needs a C compiler; no test of the gate runs this.
#
# usage: refuse_memory.sh [STEP]    only each STEPth request is refused (1 by default)

top=$(cd -- "$(dirname -- "$0")/../.." && pwd)
program=$("$top/phpsa" --program) || exit
step=${1:-1}
room=$(mktemp -d)
trap 'rm -rf "$room"' EXIT
cd "$room" || exit 1

# The calls are counted; the one whose number is in REFUSED gives none. At the end their count is written to the file COUNTED.
cat >refusing.c <<'C'
#define _GNU_SOURCE
#include <dlfcn.h>
#include <errno.h>
#include <stdio.h>
#include <stdlib.h>

static unsigned long calls, refused;
static void *(*give)(size_t), *(*grow)(void *, size_t);

__attribute__((constructor)) static void begin(void) {
  give = dlsym(RTLD_NEXT, "malloc");
  grow = dlsym(RTLD_NEXT, "realloc");
  const char *number = getenv("REFUSED");
  refused = number ? strtoul(number, 0, 10) : 0;
  calls = 0;
}

__attribute__((destructor)) static void end(void) {
  const char *name = getenv("COUNTED");
  unsigned long count = calls;
  FILE *file = name ? fopen(name, "w") : 0;
  if (file) fprintf(file, "%lu\n", count), fclose(file);
}

static int is_refused(void) { return ++calls == refused && (errno = ENOMEM); }

void *malloc(size_t size) {
  if (!give) give = dlsym(RTLD_NEXT, "malloc");
  return is_refused() ? 0 : give(size);
}

void *realloc(void *old, size_t size) {
  if (!grow) grow = dlsym(RTLD_NEXT, "realloc");
  return is_refused() ? 0 : grow(old, size);
}
C
"${CC:-cc}" -O2 -shared -fPIC -o refusing.so refusing.c -ldl || exit 1

front='<!DOCTYPE html PUBLIC "-//W3C//DTD XHTML 1.0 Strict//EN" "http://www.w3.org/TR/xhtml1/DTD/xhtml1-strict.dtd"><html xmlns="http://www.w3.org/1999/xhtml"><head><title>t</title></head><body>'
back='</body></html>'
printf '%s<p>a</p>%s' "$front" "$back" >page.php
printf '%s' "<?php \$a = [5 => 'x']; \$a[] = 'y'; foreach (\$a as \$k => \$v) echo \$k, \$v; echo implode('-', explode(',', 'a,,b'));" >run.php
printf '<?xml version="1.0" encoding="UTF-8"?>\n%s' "$front" >head.php
printf '%s\n' "$back" >foot.php
cat >site.php <<'PHP'
<?php include 'head.php'; ?>
<ul><li>all</li>
<?php foreach ($_GET as $k => $v): ?>
<li class="<?= htmlspecialchars($k) ?>"><?= htmlspecialchars(is_string($v) ? $v : '-') ?></li>
<?php endforeach; ?>
</ul>
<?php include 'foot.php'; ?>
PHP
printf '%s' '{"get":{"a":"x<"}}' >r.json
printf 'page.php\nsite.php\nmissing.php\n' >pages
printf '%s<p><?= year(), trim("a") ?></p>%s' "$front" "$back" >year.php
printf '%s' '<?php function year() { return digits(2, 4); } function digits($a, $b) { return $a . $b; } function trim() { }' >env.php

bad=0

# row WORDS..: refuses each request of this call in turn, and says how many were refused and how the calls ended
row() {
  "$program" "$@" >usual.out 2>usual.err
  local usual=$? count at status short=0 words=0 same=0 other=0
  COUNTED=$room/count LD_PRELOAD=$room/refusing.so "$program" "$@" >out 2>err
  count=$(cat "$room/count")
  for ((at = 1; at <= count; at += step)); do
    REFUSED=$at LD_PRELOAD=$room/refusing.so "$program" "$@" >out 2>err
    status=$?
    if [ "$status" = "$usual" ] && cmp -s out usual.out && cmp -s err usual.err; then
      same=$((same + 1))
    elif [ "$status" = 12 ] && cmp -s -n "$(stat -c %s out)" out usual.out && [ "$(cat err)" = 'phpsa: Memory' ]; then
      short=$((short + 1))
    elif [ "$status" = 16 ] && [ ! -s out ] && [ ! -s err ]; then
      words=$((words + 1))
    else
      other=$((other + 1))
      echo "  request $at: status $status" >&2
    fi
  done
  echo "$*: $count requests; each ${step}th refused: status 12 $short times, 16 $words times, as usual $same times, otherwise $other times"
  bad=$((bad + other))
}

row check page.php
row run run.php
row make 3 --check
row check site.php
row run site.php --request r.json
row page page.php
row site pages
row check year.php --stubs env.php
[ "$bad" = 0 ]
