#!/bin/sh
# What a buyer in C or C++ gets: the library and the headers are built and installed into a scratch folder, and from there, by pkg-config
# alone, everything below is compiled, with warnings as errors, and run. The gate calls it; it needs make, gcc, g++, pkg-config and python3.
set -eu
cd "$(dirname "$0")/.."
root=$(pwd)
scratch=$(mktemp -d)
trap 'rm -rf "$scratch"' EXIT
fail() {
    echo "$1" >&2
    exit 1
}
installed() {
    (cd "$1" && find . ! -type d | sort)
}

# The same files with and without DESTDIR, and the folders that cut.pc names are those without it.
prefix=$scratch/usr
make --silent install PREFIX="$prefix" LIBDIR="$prefix/lib" INCLUDEDIR="$prefix/include" PKGCONFIGDIR="$prefix/lib/pkgconfig" \
    DOCDIR="$prefix/share/doc/cut" DESTDIR=
make --silent install PREFIX=/usr LIBDIR=/usr/lib64 INCLUDEDIR=/usr/include PKGCONFIGDIR=/usr/lib64/pkgconfig \
    DOCDIR=/usr/share/doc/cut DESTDIR="$scratch/stage"
python3 tools/installed_docs.py "$prefix" || fail "What is installed names a file that is not there."
installed "$prefix" >"$scratch/plain"
installed "$scratch/stage/usr" | sed 's|^./lib64/|./lib/|' | sort >"$scratch/staged"
cmp "$scratch/plain" "$scratch/staged" || fail "make install writes other files with DESTDIR."
grep -qx 'prefix=/usr' "$scratch/stage/usr/lib64/pkgconfig/cut.pc" || fail "cut.pc does not name PREFIX."
! grep -q "$scratch" "$scratch/stage/usr/lib64/pkgconfig/cut.pc" || fail "cut.pc names DESTDIR."
make --silent uninstall PREFIX=/usr LIBDIR=/usr/lib64 INCLUDEDIR=/usr/include PKGCONFIGDIR=/usr/lib64/pkgconfig \
    DOCDIR=/usr/share/doc/cut DESTDIR="$scratch/stage"
[ -z "$(installed "$scratch/stage")" ] || fail "make uninstall leaves files."

# Only this installation can be found.
export PKG_CONFIG_LIBDIR="$prefix/lib/pkgconfig" PKG_CONFIG_PATH=
flags=$(pkg-config --cflags cut)
libs=$(pkg-config --libs cut)
libdir=$(pkg-config --variable=libdir cut)
version=$(sed -n 's/^#define CUT_VERSION "\(.*\)"/\1/p' c/cut/refusal.h)
[ "$(pkg-config --modversion cut)" = "$version" ] || fail "cut.pc has another version than the headers."

# The libraries show the calls of the headers and nothing else, and need two functions of the C library.
nm -P --defined-only --extern-only "$libdir/libcut.a" | sed -n 's/ [A-Z] .*//p' | sort >"$scratch/archive"
nm -P --defined-only --dynamic --without-symbol-versions "$libdir/libcut.so" | sed '/^CUT_/d; s/ .*//' | sort >"$scratch/shared"
sed -n 's/^cut_[a-z_]* \(cut_[a-z_]*\)(.*;$/\1/p; s/^uint[0-9]*_t \(cut_[a-z_]*\)(.*;$/\1/p; s/^CUT_INLINE .*[ *]\(cut_[a-z_]*\)(.*)$/\1/p' \
    c/cut/*.h | sort >"$scratch/declared"
cmp "$scratch/archive" "$scratch/declared" || fail "libcut.a does not show just the calls that the headers declare."
cmp "$scratch/shared" "$scratch/declared" || fail "libcut.so does not show just the calls that the headers declare."
needs=$(nm -P --undefined-only --dynamic "$libdir/libcut.so" | sed 's/[@ ].*//' | sort | tr '\n' ' ')
[ "$needs" = "memcpy memset " ] || fail "libcut.so needs $needs"
readelf -d "$libdir/libcut.so" | grep -q "soname: \[libcut.so.${version%%.*}\]" || fail "libcut.so has another soname."

# A call stays under the version that had it first: the parts of versions that were delivered are as they were, and the rest stands behind them.
sed -n '/^CUT_/,$p' c/cut.map | head -n "$(wc -l <tests/delivered.map)" | cmp - tests/delivered.map ||
    fail "c/cut.map moves a call of a version that was delivered."

# Each header alone, and two in either order; and no macro without the prefix.
cd "$scratch"
c="gcc -std=c11 -Wall -Wextra -Wpedantic -Werror -O2 $flags"
cpp="g++ -std=c++17 -Wall -Wextra -Wpedantic -Werror -O2 $flags"
for names in refusal zone site "zone site" "site zone" "site refusal"; do
    for name in $names; do
        echo "#include <cut/$name.h>"
    done >headers.c
    cp headers.c headers.cpp
    $c -fsyntax-only headers.c
    $cpp -fsyntax-only headers.cpp
done
printf '#include <stddef.h>\n#include <stdint.h>\n' >headers.c
$c -E -dM headers.c | sort >before
echo '#include <cut/site.h>' >headers.c
others=$($c -E -dM headers.c | sort | comm -13 before - | sed '/^#define CUT_/d')
[ -z "$others" ] || fail "The headers define $others"

# The loop of docs/INTEGRATION.md, as tests/loop.c includes it.
sed -n "/^### A controller's loop/,/^### What/s/^    //p" "$root/docs/INTEGRATION.md" >loop.inc
grep -q cut_zone_request loop.inc || fail "docs/INTEGRATION.md has no controller's loop."

# The examples against the shared library and against the archive; those with a run also by the library's own calls on it, in place of the header's
# inline ones.
own='-DCUT_INLINE=extern inline __attribute__((gnu_inline))'
for from in example.c desk.c fitter.c both.cpp loop.c stack.c; do
    case $from in
    loop.c | stack.c) source=$root/tests/$from compile="$c -I." ;;
    *.cpp) source=$root/c/$from compile=$cpp ;;
    *) source=$root/c/$from compile=$c ;;
    esac
    $compile "$source" $libs -o shared
    readelf -d shared | grep -q 'NEEDED.*libcut' || fail "$from was not linked with libcut.so."
    echo "$from with libcut.so:"
    LD_LIBRARY_PATH=$libdir ./shared
    $compile "$source" "$libdir/libcut.a" -o alone
    ! readelf -d alone | grep -q 'NEEDED.*libcut' || fail "$from was not linked with libcut.a."
    echo "$from with libcut.a:"
    ./alone
    case $from in desk.c | fitter.c | stack.c)
        $compile -fno-inline "$own" "$source" $libs -o shared
        nm -P --undefined-only shared | grep -q '^cut_open@CUT_' || fail "$from does not make the library's own calls on a run."
        echo "$from by the library's calls on a run:"
        LD_LIBRARY_PATH=$libdir ./shared
        ;;
    esac
done
python3 "$root/tests/desk.py" "$libdir/libcut.so"

# Whoever links the zone part alone gets nothing of the site engine, also with the version and the words of the refusals.
printf '#include <cut/zone.h>\nint main(void)\n{\nreturn !cut_compatible() || cut_zone_open(1, 2, 1, 0).refusal != CUT_ACCEPTED;\n}\n' >zone.c
$c zone.c "$libdir/libcut.a" -o alone
./alone || fail "A controller does not run with the zone part alone."
others=$(nm -P alone | sed -n 's/^\(cut_[a-z_]*\) .*/\1/p' | sed '/^cut_zone_/d' | sort | tr '\n' ' ')
[ "$others" = "cut_refusal_words cut_version " ] || fail "A controller with the zone part alone also gets $others"

# Older libraries, made of the same archive: without the calls that came last, and the same without versions, as they were before 3.4.0.
soname=libcut.so.${version%%.*}
older() {
    mkdir "$1"
    gcc -shared -nostartfiles -Wl,-soname,"$soname" -Wl,--version-script="$1.map" -Wl,--whole-archive "$libdir/libcut.a" \
        -Wl,--no-whole-archive -o "$1/$soname"
}
last=$(sed -n 's/^\(CUT_[0-9.]*\) {$/\1/p' "$root/c/cut.map" | tail -n 1)
newest=$(sed -n "/^$last {/,\$s/^ *\(cut_[a-z_]*\);/\1/p" "$root/c/cut.map" | head -n 1)
sed "/^$last {/,\$d" "$root/c/cut.map" >versions.map
printf '{ global: %s local: *; };\n' "$(sed -n 's/^ *\(cut_[a-z_]*;\)/\1/p' versions.map | tr '\n' ' ')" >bare.map
older versions
older bare

# A program that makes such a call does not start there, and says why; one that makes none runs.
cat >newest.c <<END
#include <stdio.h>
void $newest(void);
int main(int count, char **words)
{
    (void)words;
    puts("started");
    if (count > 1)
        $newest();
    return 0;
}
END
$c newest.c $libs -o newest
not_started() {
    ! LD_LIBRARY_PATH=$1 ./newest >out 2>err || fail "A program starts on an older library without $newest."
    [ ! -s out ] || fail "A program starts on an older library and fails at $newest."
    grep -q "$2" err || fail "A program does not say why it cannot start on an older library: $(cat err)"
}
[ "$(LD_LIBRARY_PATH=$libdir ./newest)" = started ] || fail "A program that calls $newest does not start on this library."
not_started versions "version .$last' not found"
not_started bare "undefined symbol: $newest"
$c "$root/c/fitter.c" $libs -o new
LD_LIBRARY_PATH=$libdir ./new >wanted
LD_LIBRARY_PATH=versions ./new 2>&1 | cmp - wanted || fail "A program does not run on an older library that has its calls."

# A program that was linked with a library without versions runs with this one.
$c "$root/c/fitter.c" "bare/$soname" -o old
! readelf -V old | grep -q CUT_ || fail "A library without versions has versions."
LD_LIBRARY_PATH=$libdir ./old 2>&1 | cmp - wanted || fail "A program that was linked before 3.4.0 does not run with this library."

# What cut_compatible answers with this header, and with one of a later minor or another major number.
printf '#include <cut/refusal.h>\nint main(void)\n{\nreturn cut_compatible();\n}\n' >asks.c
asked() {
    mkdir -p headers/cut
    sed "$1" "$prefix/include/cut/refusal.h" >headers/cut/refusal.h
    gcc -std=c11 -Iheaders asks.c $libs -o asks
    answer=0
    LD_LIBRARY_PATH=$libdir ./asks || answer=$?
    [ "$answer" = "$2" ] || fail "cut_compatible answers $answer where the header is changed by $1"
}
asked '' 1
asked 's/^\(#define CUT_VERSION_MINOR\) .*/\1 0/' 1
asked 's/^\(#define CUT_VERSION_MINOR\) .*/\1 99/' 0
asked 's/^\(#define CUT_VERSION_MAJOR\) .*/\1 2/' 0

# The lines of docs/OPENING.md for a fitter, also with a run on the stack, of which compilers may say that it has no value yet.
{
    printf '#include <stdio.h>\n#include <cut/site.h>\nint main(void)\n{\n'
    sed -n '/^## For a fitter/,/^c.fitter.c/s/^    //p' "$root/docs/OPENING.md"
    printf 'return 0;\n}\n'
} >lines.c
grep -q cut_open lines.c || fail "docs/OPENING.md has no lines for a fitter."
sed 's/^static //' lines.c >automatic.c
for from in lines.c automatic.c; do
    $c $from "$libdir/libcut.a" -o alone
    ./alone || fail "The opening in docs/OPENING.md for a fitter is refused."
done

# What that document says of the output of c/fitter.c.
sed -n '/^## For a fitter/,$s/^    \([a-z]*: .*\)/\1/p' "$root/docs/OPENING.md" >said
$c "$root/c/fitter.c" "$libdir/libcut.a" -o alone
./alone | cmp - said || fail "docs/OPENING.md does not say what c/fitter.c prints."
