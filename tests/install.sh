#!/usr/bin/env bash
# `make install`: what it installs, a C program that is compiled against it by pkg-config alone, the installed program and the manual pages.
set -u
cd "$(dirname "$0")/.." || exit 2
unset MAKEFLAGS MAKELEVEL PKG_CONFIG_PATH
CC=${CC:-cc}

folder=$(mktemp -d)
trap 'rm -rf "$folder"' EXIT
failures=0

fail() {
  echo "tests/install.sh: $1" >&2
  failures=$((failures + 1))
}

# expect_files FOLDER LINE..: below the folder are these files, each with its mode before it, and no others.
expect_files() {
  local below=$1
  shift
  diff <(printf '%s\n' "$@") <(cd "$below" && find . -type f -printf '%m %P\n' | LC_ALL=C sort -k 2) || fail "$below has other files than are due"
}

files=('755 bin/rigcactus' '644 include/rigcactus.h' '644 lib/librigcactus.a' '644 lib/pkgconfig/rigcactus.pc' '644 share/man/man1/rigcactus.1'
  '644 share/man/man3/rigcactus.3')
prefix=$folder/prefix
make install PREFIX="$prefix" > "$folder/said" 2>&1 || fail "make install failed: $(cat "$folder/said")"
expect_files "$prefix" "${files[@]}"
cmp include/rigcactus.h "$prefix/include/rigcactus.h" || fail 'another header'
cmp target/staticlib/librigcactus.a "$prefix/lib/librigcactus.a" || fail 'another archive'

# The program of the manual page, compiled away from the repository. What it prints stands below it there.
awk '/^\.EX$/ { inside = 1; next } /^\.EE$/ { inside = 0 } inside' man/rigcactus.3 | sed 's/\\e/\\/g' > "$folder/program.c"
if command -v pkg-config > "$folder/said"; then
  export PKG_CONFIG_PATH=$prefix/lib/pkgconfig
  read -ra flags <<< "$(pkg-config --cflags --libs rigcactus)"
  version=$(pkg-config --modversion rigcactus)
else
  echo 'skipped pkg-config: it is not installed'
  flags=("-I$prefix/include" "-L$prefix/lib" -lrigcactus)
  version=$(sed -n 's/^Version: //p' "$prefix/lib/pkgconfig/rigcactus.pc")
fi
(cd "$folder" && "$CC" -std=c11 -Wall -Wextra -Wpedantic -Werror -o program program.c "${flags[@]}") || fail 'the program of rigcactus.3 does not compile'
[ "$("$folder/program")" = '2 bytes' ] || fail 'the program of rigcactus.3 prints another text'

# The installed program, away from the repository.
records=$PWD/examples/receipts/chinese
(cd "$folder" && "$prefix/bin/rigcactus" receipt "$records/name.xml" "$records/sum.xml" "$records/pass.xml" "$records/identifier.xml" --offset 480) |
  cmp - tests/receipts/chinese.txt || fail 'the installed program prints another receipt'

# The manual pages: of this version, without a fault, and with every command and every service.
for page in man1/rigcactus.1 man3/rigcactus.3; do
  grep -q "^\\.TH RIGCACTUS [13] .*\"rigcactus $version\"" "$prefix/share/man/$page" || fail "$page is not of version $version"
  command -v groff > "$folder/said" || { echo "skipped groff on $page: it is not installed"; continue; }
  groff -man -Tutf8 -ww "$prefix/share/man/$page" > "$folder/page" 2> "$folder/said"
  [ ! -s "$folder/said" ] || fail "$page: $(cat "$folder/said")"
done
for command in $("$prefix/bin/rigcactus" --help | sed -n 's/^  \([a-z]*\) .*/\1/p'); do
  grep -qx "\\.B $command" man/rigcactus.1 || fail "rigcactus.1 does not name the command $command"
done
for service in $(sed -n 's/^uint64_t \(rigcactus_[a-z_]*\)(.*/\1/p' include/rigcactus.h); do
  grep -q "^\\.BI \"uint64_t $service(" man/rigcactus.3 || fail "rigcactus.3 does not name the service $service"
done

# To a folder that stands in for the root, and away again.
make install PREFIX=/usr/desk DESTDIR="$folder/root" > "$folder/said" 2>&1 || fail "make install with DESTDIR failed: $(cat "$folder/said")"
expect_files "$folder/root/usr/desk" "${files[@]}"
grep -qx 'prefix=/usr/desk' "$folder/root/usr/desk/lib/pkgconfig/rigcactus.pc" || fail 'another prefix in rigcactus.pc'
make uninstall PREFIX=/usr/desk DESTDIR="$folder/root" > "$folder/said" 2>&1 || fail "make uninstall failed: $(cat "$folder/said")"
[ -z "$(find "$folder/root" -type f)" ] || fail 'make uninstall left files'

[ "$failures" -eq 0 ]
