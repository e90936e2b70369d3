#!/bin/sh
# Builds the differential driver and the trace oracle, with rustc alone.
#   build.sh [leaves]   with the word: compare_leaves too
#   ORIGINALS=DIR   the Rust originals (default ../shared/docs/src beside the project); read there, copied only under OUT
#   LIBFFI=FILE     the port as a static library (default target/staticlib/libffi.a, made by `tools/archive ffi` when missing)
#   OUT=DIR         where everything goes (default target/oracle)
# OUT/compare         the port beside the four originals over the stand-ins
# OUT/compare_leaves  as compare, over the original bits.rs, crc32.rs and page_read.rs as well, the Rust with its own
#                     checks of overflow and assertions
# OUT/oracle_trace    document 01's trace program, its work done by the four originals
# OUT/edges           the port beside the second, plain implementation (driver/edges.rs)
set -eu
here=$(cd "$(dirname "$0")" && pwd)
root=$(cd "$here/.." && pwd)
originals=${ORIGINALS:-$root/../shared/docs/src}
lib=${LIBFFI:-$root/target/staticlib/libffi.a}
out=${OUT:-$root/target/oracle}
[ -f "$lib" ] || "$root/tools/archive" ffi >/dev/null
mkdir -p "$out" && out=$(cd "$out" && pwd)
lib=$(cd "$(dirname "$lib")" && pwd)/$(basename "$lib")
rustc="rustc --edition 2021 -C opt-level=3 -C codegen-units=4"

# An original, byte for byte, held to its checksum.
take() {
    want=$(awk -v f="$2" '$2 == f { print $1 }' "$here/originals.sha256")
    have=$(sha256sum < "$originals/src/$2" | cut -c1-64)
    [ "$want" = "$have" ] || { echo "build: $2 is not the original that is known: $have" >&2; exit 1; }
    cp "$originals/src/$2" "$1/$2"
    echo "$have  $2"
}

# The crate `originals`: our stand-ins, and the originals named after the tree.
crate() {
    tree=$out/$1; cfg=$2; shift 2
    rm -rf "$tree" && mkdir -p "$tree"
    cp -R "$here/originals/." "$tree/"
    for f; do take "$tree" "$f"; done
    $rustc -A warnings $cfg --crate-type rlib --crate-name originals "$tree/lib.rs" -o "$tree/liboriginals.rlib" $standins
}

# program NAME SOURCE TREE ARGS...
program() {
    name=$1; source=$2; tree=$3; shift 3
    $rustc --crate-name "$name" "$here/$source" -o "$out/$name" -L "$out" \
        --extern originals="$out/$tree/liboriginals.rlib" "$@"
}

$rustc --crate-type rlib --crate-name libc "$here/standin/libc.rs" -o "$out/liblibc.rlib"
$rustc --crate-type rlib --crate-name std_standin "$here/standin/std.rs" -o "$out/libstd_standin.rlib"
standins="--extern libc=$out/liblibc.rlib --extern std_standin=$out/libstd_standin.rlib"
four="ftl/page_core.rs ftl/page_write.rs ftl/page_gc.rs ftl/page_map.rs"
crate originals "" $four
program compare driver/main.rs originals -C link-arg="$lib"
program oracle_trace trace/main.rs originals
if [ "${1:-}" = leaves ]; then
    crate leaves "--cfg leaves -C overflow-checks -C debug-assertions" $four bits.rs crc32.rs ftl/page_read.rs
    program compare_leaves driver/main.rs leaves -C link-arg="$lib"
fi
$rustc --crate-name edges "$here/driver/edges.rs" -o "$out/edges" -C link-arg="$lib"
echo "built: $out"
