#!/usr/bin/env bash
# Tests the C library as its user meets it: headers, functions, installed files, the examples.
set -eu -o pipefail
cd "$(dirname "${BASH_SOURCE[0]}")/.."
root=$PWD
work=$(mktemp -d)
trap 'rm -rf "$work"' EXIT
warn="-Wall -Wextra -Wshadow -pedantic -Werror"
failed() { echo "C library: FAILED: $*" && exit 1; }

make --no-print-directory lib

# Each header alone, and once more, without a warning, in each language and by each compiler there is.
tried=
for compiler in gcc:c99 gcc:c11 clang:c99 clang:c11 g++:c++98 g++:c++17 clang++:c++98 clang++:c++17; do
    command=${compiler%:*} standard=${compiler#*:}
    type "$command" >/dev/null 2>&1 || continue
    case $command in *++) language=c++ ;; *) language=c ;; esac
    for header in include/*.h; do
        printf '#include "%s"\n' "$root/$header" "$root/$header" |
            "$command" -x $language -std="$standard" $warn -Wconversion -fsyntax-only - ||
            failed "$header by $command as $standard"
    done
    tried+=" $compiler"
done
echo "C library: headers without a warning by$tried"

# What the headers declare is what the libraries hold, each function once.
scripts/declared include/*.h >"$work/declared"
for library in libnuldrafon.a libnuldrafon.so; do
    case $library in *.so) words=-D ;; *) words=-g ;; esac
    nm $words --defined-only "target/$library" | awk 'NF == 3 { print $3 }' | sort >"$work/held"
    diff "$work/declared" "$work/held" || failed "declared (<) and held by $library (>)"
done
echo "C library: $(wc -l <"$work/declared") functions, in the headers and in both libraries"

# The names of places and refusals, held to known answers.
gcc -std=c99 -O2 $warn -Wconversion -Iinclude tests/places.c target/libnuldrafon.a -o "$work/places"
"$work/places" || failed "names of places and refusals"

# From C++ the functions have their C names.
if type g++ >/dev/null 2>&1; then
    {
        printf '#include "%s"\n' include/*.h
        echo 'typedef void (*function)(); int main() { function all[] = {'
        sed 's/.*/(function)&,/' "$work/declared"
        echo '0}; return all[0] == 0; }'
    } >"$work/all.cc"
    g++ -I. "$work/all.cc" target/libnuldrafon.a -o "$work/all" && "$work/all" || failed "from C++"
fi

# Installed under a prefix, and by DESTDIR for a prefix: the same files.
make --no-print-directory install PREFIX="$work/prefix"
make --no-print-directory install PREFIX=/usr DESTDIR="$work/staged"
sed -i "s|^prefix=/usr$|prefix=$work/prefix|" "$work/staged/usr/lib/pkgconfig/nuldrafon.pc"
diff -r "$work/prefix" "$work/staged/usr" || failed "make install with DESTDIR"

# From here on outside the repository, with the installed files alone.
mkdir "$work/user"
awk '/^```c$/ { on = 1; next } /^```$/ { on = 0 } on' README.md >"$work/user/readme.c"
sed -n 's|^    # \(depth 2, .*\)|\1|p' README.md >"$work/user/readme.txt"
cp examples/*.c "$work/user"
cd "$work/user"
there() { pkg-config --version >/dev/null 2>&1; }
apt() { DEBIAN_FRONTEND=noninteractive timeout 120 apt-get "$@" </dev/null >/dev/null 2>&1; }
there || { apt update && apt install -y pkg-config; } || true
if there; then
    export PKG_CONFIG_PATH=$work/prefix/lib/pkgconfig
    cflags=$(pkg-config --cflags nuldrafon) libs=$(pkg-config --libs nuldrafon)
    folder=$(pkg-config --variable=libdir nuldrafon)
else
    echo "C library: pkg-config is not there and cannot be installed, so nuldrafon.pc is not tried"
    folder=$work/prefix/lib
    cflags=-I$work/prefix/include libs="-L$folder -lnuldrafon"
fi
for program in index readme; do
    compile="gcc -std=c99 -O2 $warn -Wconversion $cflags $program.c"
    $compile $libs -o $program-shared
    $compile "$folder/libnuldrafon.a" -o $program-static
    readelf -d $program-shared | grep -q 'NEEDED.*libnuldrafon' || failed "$program is not shared"
    LD_LIBRARY_PATH=$folder ./$program-shared shared.index >$program-shared.txt || failed "$program, shared"
    ./$program-static static.index >$program-static.txt || failed "$program, static"
    cmp $program-shared.txt $program-static.txt || failed "$program, shared and static"
done
cmp shared.index static.index || failed "the files of both"
cmp readme.txt readme-static.txt || failed "README's example"
echo "C library: installed; examples/index.c built and run, with the shared and the static library"
