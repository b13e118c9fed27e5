#!/bin/sh
# Judges pages of about 1,048,576 bytes of one kind each with `xmllint --dtdvalid` and with `phpsa page`, by the same
# definition, and prints the processor time of each in milliseconds, the least of some turns, and how many times the
# one is the other; both times have the start of the program in them. Give the program phpsa as the first word, and the
# number of turns as the second (5 if left out).
# It needs xmllint, perl and GNU time as /usr/bin/time, and says so where both do not find each page valid.
set -eu
program=$1
turns=${2:-5}
folder=$(mktemp -d)
trap 'rm -rf "$folder"' EXIT

cat >"$folder/d.dtd" <<'DEFINITION'
<!ENTITY % flow "(#PCDATA|p|ul|em|br)*">
<!ENTITY nbsp "&#160;">
<!ELEMENT html (body)>
<!ELEMENT body %flow;>
<!ELEMENT p (#PCDATA|em|br)*>
<!ELEMENT em (#PCDATA|em|br)*>
<!ELEMENT br EMPTY>
<!ELEMENT ul (li)+>
<!ELEMENT li %flow;>
<!ATTLIST p class CDATA #IMPLIED title CDATA #IMPLIED lang NMTOKEN #IMPLIED>
<!ATTLIST li class CDATA #IMPLIED>
DEFINITION

# A page: the head, then the middle as often as it fits, then the tail.
make_page() {
  perl -e '
    my ($name, $head, $middle, $tail) = map { s/\\n/\n/gr } @ARGV;
    my $times = int((1048576 - length($head) - length($tail)) / length($middle));
    open(my $out, ">", $name) or die; print $out $head, $middle x $times, $tail;' \
    "$folder/$1.xhtml" "$2" "$3" "$4"
}

make_page elements '<html><body>' '<p>text of a page, as most of it is</p>\n' '</body></html>'
make_page lists '<html><body>' '<ul><li>one</li><li>two<br/></li></ul>\n' '</body></html>'
make_page attributes '<html><body>' '<p class="a b" title="some text" lang="en">x</p>\n' '</body></html>'
make_page references '<html><body><p>' 'a &amp; b &#233; &lt;\n' '</p></body></html>'
make_page text '<html><body><p>' 'words and words and words\n' '</p></body></html>'
make_page sections '<html><body><p>' '<![CDATA[a < b]]> <!-- c -->\n' '</p></body></html>'

# The least processor time of a command over the turns, of ten runs each, in tenths of a millisecond a run.
least() {
  best=
  for _ in $(seq "$turns"); do
    /usr/bin/time -o "$folder/time" -f '%U %S' \
      sh -c 'for _ in 1 2 3 4 5 6 7 8 9 10; do "$@" || exit 1; done' sh "$@" >"$folder/said" 2>&1 ||
      echo "not valid: $*" >&2
    taken=$(tail -n 1 "$folder/time" | awk '{ printf "%.0f", ($1 + $2) * 1000 }')
    if [ -z "$best" ] || [ "$taken" -lt "$best" ]; then best=$taken; fi
  done
  echo "$best"
}

printf '%-12s %10s %10s %8s\n' page xmllint phpsa ratio
for page in elements lists attributes references text sections; do
  theirs=$(least xmllint --noout --dtdvalid "$folder/d.dtd" "$folder/$page.xhtml")
  ours=$(least "$program" page "$folder/$page.xhtml" --dtd "$folder/d.dtd")
  awk -v name="$page" -v a="$ours" -v b="$theirs" \
    'BEGIN { printf "%-12s %10.1f %10.1f %8s\n", name, b / 10, a / 10, (b > 0 ? sprintf("%.1f", a / b) : "-") }'
done
