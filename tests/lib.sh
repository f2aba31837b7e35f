# Shared by the test scripts: tools that are found or installed, a count of what passed and failed, hexadecimal images.

# need TOOL [PACKAGE]: TOOL is there, or Debian's PACKAGE (the same name where none is given) is installed and then it is
need() {
  command -v "$1" >/dev/null 2>&1 && return 0
  if [ "$1" != rt ] && command -v apt-get >/dev/null 2>&1; then
    { apt-get update && DEBIAN_FRONTEND=noninteractive apt-get install -y --no-install-recommends "${2:-$1}"; } >/dev/null 2>&1
  fi
  command -v "$1" >/dev/null 2>&1 && return 0
  echo "missing: $1"; return 1
}

figure=crates/figure/out/figure archive=crates/linked/out/liblinked.a   # what `rt ci` and `rt run`, and what `rt lib` makes; from the top
# newest FILE: it is there, and no source is newer
newest() { [ -f "$1" ] && [ -z "$(find crates crates.txt -name out -prune -o -type f -newer "$1" -print -quit)" ]; }
# program: the program figure is there, proved and built anew where a source is newer
program() { newest $figure || { need rt && (cd crates/figure && rt run <stdin >/dev/null); }; }
# library: the library for programs in C and Rust is there, the same way
library() { newest $archive || { need rt && (cd crates/linked && rt lib </dev/null); }; }

# below NAME LIST: the crates of the file LIST that crate NAME rests on, each behind those that it uses, as rt takes them, and last the crate
below() {
  awk -v name="$1" '
    function visit(it, n, k, deps) {
      if (!(it in uses) || seen[it]++) return
      n = split(uses[it], deps, /[ ,\t]+/)
      for (k = 1; k <= n; k++) visit(deps[k])
      print it
    }
    { sub(/#.*/, "") } split($0, half, ":") { split(half[1], word, " "); uses[word[1]] = half[2] } END { visit(name) }' "$2"
}

# sources NAME FOLDER: copies crate NAME, without what was made of it, into the repository at FOLDER
sources() {
  local part
  mkdir -p "$2/crates/$1" && for part in "crates/$1"/*; do [ "${part##*/}" = out ] || cp -r "$part" "$2/crates/$1/" || return; done
}

# report NAME [FLAG..]: of the check of crate NAME what its verdict rests on: of each crate that declares C functions how many are reached, those
# functions, and the verdict. It fails where the crate is not proved, and where the check has no such report, as that of a mere library
report() {
  local said
  said=$(cd "crates/$1" && rt check --list-axioms "${@:2}" </dev/null 2>&1) && grep -q '^logic=proved .* target=' <<<"$said" || { tail -n 20 <<<"$said" >&2; return 1; }
  grep -E '^axioms |^  [^ ]+ +reached$|^logic=proved ' <<<"$said"
}
# reached: the functions in a report on standard input
reached() { sed -n 's/^  \([^ ]*\) *reached$/\1/p' | sort; }
# none_reached: how many functions of each crate of the kit that declares any, and how many in all; and what it writes where there are none
none_reached() { sed -n 's/^axioms \(.*\) of the [0-9]* declared$/\1/p; s/^logic=.* \(axioms=[0-9]*\) .*/\1/p'; }
none_reached=$'libc: none reached\nos: none reached\nstd: none reached'

ok=0 bad=0
# told NAME STATUS: counts a test
told() { if [ "$2" -eq 0 ]; then ok=$((ok + 1)); else bad=$((bad + 1)); echo "FAILED: $1"; fi; }
# same NAME EXPECTED GOT: counts a comparison of two texts
same() { [ "$2" = "$3" ]; local s=$?; told "$1" $s; [ $s -eq 0 ] || { echo "  expected: $2"; echo "  got:      $3"; }; }
# counts: the closing line
counts() { echo "$ok passed, $bad failed"; [ "$bad" -eq 0 ] && [ "$ok" -gt 0 ]; }

# bytes [NAME]: hexadecimal digits on standard input, bytes on standard output; blanks, line ends and '#' comments are passed over. Anything
# else, or an odd number of digits, is an error: a line on standard error begins with NAME, and no byte is written.
bytes() {
  LC_ALL=C perl -we '
    use strict;
    my ($name, $text, $digits, $line) = (shift, "", "", 0);
    sub fail { print STDERR $name, @_, "\n"; exit 1 }
    sub shown { my $c = shift; $c =~ /[!-~]/ ? qq("$c") : sprintf "byte %02X", ord $c }
    binmode STDIN;
    binmode STDOUT;
    while (my $n = sysread(STDIN, $text, 65536, length $text) // fail(": it cannot be read: ", $!)) {
      fail(": longer than any image") if length $text > 1 << 24;
    }
    for (split /\r\n|\r|\n/, $text) {
      $line++;
      s/#.*//;
      s/\s+//g;
      fail(", line $line: ", shown($1), " is not a hexadecimal digit") if /([^0-9A-Fa-f])/;
      $digits .= $_;
    }
    fail(": an odd number of hexadecimal digits, ", length $digits, "; a byte has two") if length($digits) % 2;
    print pack("H*", $digits) and close STDOUT or fail(": its bytes cannot be written: ", $!);
  ' "${1:-standard input}"
}
