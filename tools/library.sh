#!/bin/sh
# Makes out/libmorph.a, out/libmorph.so and the copy for bindings/python from the archive that `rt lib` leaves in crates/morph_c/out.
set -e
cd "$(dirname "$0")/.."
kit=$(dirname "$(rt doc)")
archive=crates/morph_c/out/libmorph_c.a
[ -f "$archive" ] || { echo "library.sh: run rt lib in crates/morph_c first" >&2; exit 1; }
mkdir -p out
rm -f out/libmorph.a
# one archive: that of the crate, and the heap and the few calls of the system that it stands on
printf 'create out/libmorph.a\naddlib %s\naddlib %s\naddlib %s\nsave\nend\n' "$archive" "$kit/c/liblibc_c.a" "$kit/c/libos_c.a" | ar -M
${CC:-cc} -shared -o out/libmorph.so -Wl,-soname,libmorph.so -Wl,--whole-archive out/libmorph.a -Wl,--no-whole-archive -lm
cp out/libmorph.so bindings/python/src/morph/libmorph.so
echo "out/libmorph.a out/libmorph.so"
