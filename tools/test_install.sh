#!/usr/bin/env bash
# Tries ./phpsa, `make install`, `make release`, the completions and the steps of docs/ci.md, in a folder of its own and with no network.
# It says what was left out for want of a tool. It ends with 0 where all is well, and else says what is not and ends with 1.
#
# usage: tools/test_install.sh

top=$(cd -- "$(dirname -- "$0")/.." && pwd -P)
if [ -z "$IS_ALONE" ]; then
  for how in -n -rn; do
    if unshare "$how" true 2>/dev/null; then
      IS_ALONE=1 exec unshare "$how" "$0" "$@"
    fi
  done
  echo 'left out: a machine without network, since unshare is not allowed here'
fi

room=$(mktemp -d)
trap 'rm -rf "$room"' EXIT
site=$top/examples
bad=0

wrong() {
  echo "wrong: $*"
  bad=$((bad + 1))
}

# ends STATUS WORDS..: runs the words, keeps both outputs, and asks for this status
ends() {
  local wanted=$1 status
  shift
  "$@" >"$room/out" 2>"$room/err" </dev/null
  status=$?
  [ "$status" = "$wanted" ] || {
    wrong "status $status in place of $wanted: $*"
    head -n 5 "$room/out" "$room/err"
  }
}

# writes TEXT FILE: asks for this text in the output or the error stream that was kept
writes() { grep -qF -- "$1" "$room/$2" || wrong "$2 has no '$1'"; }

# The program in the repository. The first call may build it, and says so; the second answers in under a second.

cd "$site/form/mended" || exit 1
"$top/phpsa" check order.php || wrong 'the first call'
began=$(date +%s%N)
ends 0 "$top/phpsa" check order.php
took=$((($(date +%s%N) - began) / 1000000))
echo "a later call: $took ms"
[ "$took" -lt 1000 ] || wrong 'a later call takes over a second'
[ -s "$room/err" ] && wrong 'a later call writes to the error stream'
cd ../bug || exit 1
ends 1 "$top/phpsa" check order.php
cd ../mended || exit 1
program=$("$top/phpsa" --program) || exit 1

ln -s "$top/phpsa" "$room/by_link"
ln -s by_link "$room/by_two"
ends 0 "$room/by_two" check order.php
ends 0 sh "$top/phpsa" check order.php
cd "$room" || exit 1

# Where it cannot run it says why.
cp "$top/phpsa" "$room/alone"
ends 70 "$room/alone" check page.php
writes 'the sources are not beside this script' err
few=$room/few
mkdir "$few"
for tool in sh dirname readlink find head wc mkdir flock mktemp sha256sum sort xargs cat touch rm date; do
  ln -s "$(command -v "$tool")" "$few/"
done
copy=$room/copy
mkdir "$copy"
tar -C "$top" --exclude='crates/*/out' -cf - phpsa tools crates.txt crates | tar -C "$copy" --no-same-owner -xf -
PATH=$few ends 70 "$copy/phpsa" check page.php
writes 'python3, which is missing' err
ln -s "$(type -P true)" "$few/python3"
PATH=$few ends 70 "$copy/phpsa" check page.php
writes 'the command rt is missing' err
mkdir "$room/other"
printf '#!/bin/sh\necho %s/START-HERE.md\n' "$room/other" >"$room/other/rt"
chmod +x "$room/other/rt"
PATH=$room/other:$PATH ends 70 "$copy/phpsa" check page.php
writes 'laid out otherwise' err
# A copy of the repository runs what was copied with it, though its files are of other times.
if [ "$program" != "$top/crates/phpsa/out/phpsa" ]; then
  mkdir -p "$copy/crates/phpsa/out/quick"
  cp "$program" "$program.sources" "$copy/crates/phpsa/out/quick/"
  touch -d 2020-01-01 "$copy/crates/phpsa/out/quick/phpsa"
  PATH=$few ends 9 "$copy/phpsa"
  PATH=$few ends 9 "$copy/phpsa"
  echo '# one line more' >>"$copy/crates.txt"
  touch -d 2020-01-01 "$copy/crates/phpsa/out/quick/phpsa"
  rm "$few/python3"
  PATH=$few ends 70 "$copy/phpsa"
fi

# The installation.

ends 0 make -C "$top" --no-print-directory install PREFIX=/usr DESTDIR="$room/root"
(cd "$room/root" && find . -type f | LC_ALL=C sort) >"$room/found"
cat >"$room/wanted" <<'LIST'
./usr/bin/phpsa
./usr/lib/phpsa/PROVED
./usr/lib/phpsa/phpsa
./usr/share/bash-completion/completions/phpsa
./usr/share/doc/phpsa/LICENSE
./usr/share/doc/phpsa/examples/stubs/env.php
./usr/share/fish/vendor_completions.d/phpsa.fish
./usr/share/man/man1/phpsa.1
./usr/share/zsh/site-functions/_phpsa
LIST
diff "$room/wanted" "$room/found" || wrong 'other files were installed'
cat "$room/root/usr/lib/phpsa/PROVED"
[ "$(cut -d: -f1 "$room/root/usr/lib/phpsa/PROVED" | tr '\n' ' ')" = 'version revision toolchain gate ' ] || wrong 'the file PROVED'

# answers PHPSA: asks this program for the answers of the examples
answers() {
  local phpsa=$1
  cd "$site" || exit 1
  ends 1 "$phpsa" check list/bug/guests.php
  writes 'page 239' out
  for page in list/bug/guests.php form/bug/order.php board/bug/board.php stubs/bug/news.php; do
    cd "$site/$(dirname "$page")" || exit 1
    ends 1 "$phpsa" check "$(basename "$page")"
    cd ../mended || exit 1
    ends 0 "$phpsa" check "$(basename "$page")"
  done
  cd "$site" || exit 1
  # Without stubs the page calls functions that there are not; a file of stubs in a folder is checked as the others are.
  ends 3 "$phpsa" check stubs/mended/news.php
  writes 'phpsa: UnknownFunction header' err
  ends 0 "$phpsa" run --stubs stubs/env.php stubs/mended/news.php
  ends 1 "$phpsa" check --stubs stubs/env.php stubs/
  writes 'stubs/env.php: no' out
  writes 'stubs/mended/news.php: yes' out
  ends 1 "$phpsa" check first/bug/t.php --dtd mini
  ends 0 "$phpsa" check first/mended/t.php --dtd mini
  cd "$room" || exit 1
  echo '{"get":{"guest":["Ann","B & C"]}}' >r.json
  cp "$site/list/mended/guests.php" here.php
  ends 0 "$phpsa" run here.php --request r.json
  writes '<li>B &amp; C</li>' out
  echo '<!ELEMENT html (#PCDATA)>' >small.dtd
  echo '<html>x</html>' >small.php
  ends 0 "$phpsa" check small.php --dtd small.dtd
  # What the words leave out is said by the file of options; what they say is not.
  echo 'dtd = "small.dtd"' >phpsa.toml
  ends 0 "$phpsa" check small.php
  ends 1 "$phpsa" check small.php --dtd strict
  echo 'json = true' >phpsa.toml
  ends 9 "$phpsa" check small.php
  writes 'phpsa: Options json' err
  ends 0 "$phpsa" make 1
  ends 0 "$phpsa" check --help
  rm phpsa.toml
  ends 6 "$phpsa" check none.php
  # FILE may be a pipe, and what it gave is not asked for again; what a script includes may not.
  mkfifo both
  (echo '{}' >both) &
  ends 0 timeout 9 "$phpsa" run both --request both
  writes '{}' out
  echo '<?php echo f();' >calls.php
  (echo '<?php function f() { return "stub"; }' >both) &
  ends 0 timeout 9 "$phpsa" run calls.php --stubs both
  writes stub out
  echo "<?php include 'both';" >in.php
  ends 7 timeout 9 "$phpsa" check in.php
  rm both
  ends 9 "$phpsa"
  writes 'requires a subcommand' err
  ends 0 "$phpsa" check --help
  writes 'phpsa check FILE' out
  ends 0 "$phpsa" --version
  writes 'phpsa 0.1.0' out
  writes 'gate: ' out
  ends 16 "$phpsa" check $'\xff.php'
  writes 'phpsa: Words 2' err
}
installed=$room/root/usr/bin/phpsa
answers "$installed"
ln -s "$installed" "$room/installed_link"
ends 0 "$room/installed_link" check here.php
# A write that cannot be done gives a status, whether the reader is gone or the file may not grow.
{
  "$installed" make 1000 2>"$room/err"
  echo $? >"$room/status"
} | true
[ "$(cat "$room/status")" = 8 ] || wrong "status $(cat "$room/status") where the reader is gone"
(
  ulimit -f 1
  "$installed" make 1000 >"$room/short" 2>"$room/err"
  echo $? >"$room/status"
)
[ "$(cat "$room/status")" = 8 ] || wrong "status $(cat "$room/status") where the file may not grow"
if [ -w /dev/full ]; then
  "$installed" make 2 >/dev/full 2>"$room/err"
  [ $? = 8 ] || wrong 'a full device'
fi
mkdir -p "$room/broken/bin" && cp "$installed" "$room/broken/bin/"
ends 70 "$room/broken/bin/phpsa" check here.php
writes 'there is no program' err
if command -v groff >/dev/null 2>&1; then
  groff -man -Tutf8 -ww "$room/root/usr/share/man/man1/phpsa.1" >/dev/null 2>"$room/err"
  [ -s "$room/err" ] && wrong "the manual page: $(cat "$room/err")"
fi

# The archive.

ends 0 make -C "$top" --no-print-directory release TO="$room"
archive=$(ls "$room"/phpsa-*-x86_64-linux.tar.gz)
mkdir "$room/unpacked" && tar -C "$room/unpacked" -xzf "$archive"
unpacked=$(ls -d "$room"/unpacked/phpsa-*-x86_64-linux)
answers "$unpacked/bin/phpsa"
inner=$unpacked/lib/phpsa/phpsa
if command -v objdump >/dev/null 2>&1; then
  newest=$(objdump -T "$inner" | grep -o 'GLIBC_[0-9.]*' | sed 's/GLIBC_//' | sort -uV | tail -n 1)
  echo "the newest version of the C library that is asked for: $newest"
  [ "$(printf '%s\n' "$newest" 2.34 | sort -V | tail -n 1)" = 2.34 ] || wrong 'a C library after 2.34 is asked for'
  [ "$(objdump -p "$inner" | awk '$1 == "NEEDED" { print $2 }')" = libc.so.6 ] || wrong 'another library than the C library is asked for'
fi
jail=$room/jail
libc=$(ldd "$inner" | awk '$1 == "libc.so.6" { print $3 }')
loader=/lib64/ld-linux-x86-64.so.2
mkdir -p "$jail/lib64" "$jail/$(dirname "$libc")" "$jail/pages"
cp -L "$loader" "$jail/lib64/" && cp -L "$libc" "$jail/$libc" && cp "$inner" "$jail/phpsa" && cp -r "$site/list/." "$jail/pages/"
if chroot "$jail" /phpsa make 1 >/dev/null 2>&1; then
  ends 1 chroot "$jail" /phpsa check /pages/bug/guests.php
  writes 'page 239' out
  ends 0 chroot "$jail" /phpsa check /pages/mended/guests.php
else
  chroot / true 2>/dev/null && wrong 'the program does not run beside the C library alone'
  chroot / true 2>/dev/null || echo 'left out: chroot, which is not allowed here'
fi

# The completions have every option that the program names, and answer.

"$installed" 2>&1 | grep -o -- '--[a-z]*' | sort -u >"$room/options"
[ "$(wc -l <"$room/options")" -gt 4 ] || wrong 'the program names few options'
while read -r option; do
  for file in phpsa.bash _phpsa; do
    grep -q -- "$option\b" "$top/tools/completions/$file" || wrong "$file has no $option"
  done
  grep -q -- "-l ${option#--}\b" "$top/tools/completions/phpsa.fish" || wrong "phpsa.fish has no $option"
done <"$room/options"
# shellcheck source=/dev/null
. "$top/tools/completions/phpsa.bash"
completes() {
  local wanted=$1
  shift
  COMP_WORDS=("$@") COMP_CWORD=$(($# - 1))
  _phpsa 2>/dev/null
  [ "${COMPREPLY[*]}" = "$wanted" ] || wrong "bash completes '$*' to '${COMPREPLY[*]}'"
}
cd "$site/list/mended" || exit 1
completes check phpsa ch
completes '--dtd --limit --nesting --json --shortest --root --stubs --help' phpsa check --
completes '--root --stubs --help' phpsa grammar --
completes '--policy --root --stubs --help' phpsa match --
completes guests.php phpsa run --stubs gu
completes 'strict mini guests.php' phpsa check --dtd =
completes guests.php phpsa run gu
completes '--check --help' phpsa make --
if command -v fish >/dev/null 2>&1; then
  said=$(HOME=$room fish --no-config -c ". $top/tools/completions/phpsa.fish; complete -C 'phpsa run --ste'" 2>&1 | cut -f 1)
  [ "$said" = --steps ] || wrong "fish completes to '$said'"
else
  echo 'left out: fish, which is not here'
fi
if command -v zsh >/dev/null 2>&1; then
  zsh -n "$top/tools/completions/_phpsa" || wrong 'zsh does not read its completions'
else
  echo 'left out: zsh, which is not here'
fi

# The steps of docs/ci.md, as they stand there, on a folder with the mended pages, and with one that is not.

# step NUMBER: the commands of this step
step() {
  awk -v number="$1" '
    { match($0, /^ */) }
    is_in && NF && RLENGTH <= indent { is_in = 0 }
    /^```$/ { is_in = 0 }
    is_in { if (!cut) cut = RLENGTH; print substr($0, cut + 1) }
    /(run: |- )\|$/ { seen++; is_in = seen == number; indent = RLENGTH; cut = 0 }
  ' "$top/docs/ci.md"
}
for number in 1 2; do
  step "$number" >"$room/step"
  pages=$room/pages$number
  mkdir -p "$pages/tools" "$room/temp$number"
  cp "$archive" "$pages/tools/"
  cp "$site/list/mended/guests.php" "$pages/list.php"
  cp -r "$site/board/mended/." "$site/form/mended/." "$pages/"
  cd "$pages" || exit 1
  RUNNER_TEMP=$room/temp$number ends 0 bash -eo pipefail "$room/step"
  cp "$site/list/bug/guests.php" "$pages/guests.php"
  RUNNER_TEMP=$room/temp$number ends 1 bash -eo pipefail "$room/step"
  writes 'guests.php: no' out
done

# The commands of README: each answers as the comment beside it says, and the step for a host passes over the mended sites.

PATH=$(dirname "$installed"):$PATH
cd "$top" || exit 1
sed -n 's/^    \((\?cd [^#]*)\|phpsa check [^#]*\) *# \(yes\|no\)\b.*/\2 \1/p' README.md >"$room/said"
[ "$(wc -l <"$room/said")" -gt 2 ] || wrong 'README has few commands'
while read -r answer words; do
  [ "$(eval "$words" | head -n 1)" = "$answer" ] || wrong "README says '$answer' of '$words'"
done <"$room/said"
sed -n 's/^    \(phpsa check \*\.php\)$/\1/p' README.md >"$room/loop"
[ -s "$room/loop" ] || wrong 'README has no step for a host'
for folder in "$site"/list "$site"/form "$site"/board "$site"/stubs; do
  cp -r "$folder" "$room/host.$(basename "$folder")"
  cd "$room/host.$(basename "$folder")/mended" || exit 1
  ends 0 bash -e "$room/loop"
  cd ../bug || exit 1
  ends 1 bash -e "$room/loop"
done

# The commands of the manual page, as they stand there, in a copy of the examples.

# example NUMBER: writes the commands of this example to a file of their own
example() {
  awk -v number="$1" '/^\.fi$/ { is_in = 0 } is_in; /^\.nf$/ { is_in = ++seen == number }' "$top/docs/phpsa.1" |
    sed 's/\\-/-/g' >"$room/example$1"
  [ -s "$room/example$1" ] || wrong "the manual page has no example $1"
}
for number in 1 2 3 4; do
  example "$number"
done
mkdir "$room/manual" && cp -r "$site" "$room/manual/"
cd "$room/manual/examples/form/mended" || exit 1
ends 0 bash "$room/example1"
script=order.php ends 0 bash "$room/example2"
script=none.php ends 0 bash "$room/example2"
cd ../bug || exit 1
ends 1 bash "$room/example1"
script=order.php ends 1 bash "$room/example2"
cd "$room/manual" || exit 1
echo '{"get":{"guest":["Ann","B & C"]}}' >r.json
ends 0 bash "$room/example3"
writes '<li>B &amp; C</li>' out
ends 0 bash "$room/example4"
writes yes out

# The hook, with the installed program and with that of the repository.

cd "$room/pages1" || exit 1
PATH=$(dirname "$installed"):$PATH ends 0 "$top/tools/check_pages" list.php board.php
PATH=$(dirname "$installed"):$PATH ends 1 "$top/tools/check_pages" list.php guests.php board.php
writes 'guests.php: no' out
ends 0 "$top/tools/check_pages" list.php

# The image, which needs docker and the image it begins with.

if docker image inspect debian:bookworm-slim >/dev/null 2>&1; then
  mkdir "$room/image" && cp "$archive" "$top/Dockerfile" "$room/image/"
  ends 0 docker build -q -t phpsa-test "$room/image"
  ends 1 docker run --rm --network none -v "$site/list:/pages:ro" phpsa-test check bug/guests.php
  docker image rm phpsa-test >/dev/null
else
  echo 'left out: the image, since docker or the image debian:bookworm-slim is not here'
fi

[ "$bad" = 0 ] && echo 'all is well'
[ "$bad" = 0 ]
