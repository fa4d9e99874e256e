#!/bin/sh
# Builds the benchmark: the crate's compile2, with both of pest's ways to count lines, and the port's in one program.
#   SOURCE_DIR=.. CRATES_DIR=.. BUILD_DIR=.. HAVZELTIS_LIB=.. tools/bench/build.sh
# The first three are those of tools/oracle/build.sh, HAVZELTIS_LIB is that of tools/port. The result is
# $BUILD_DIR/bench.
set -eu
here=$(cd "$(dirname "$0")" && pwd)
: "${HAVZELTIS_LIB:?set HAVZELTIS_LIB to the folder of libccompile.a}"
"$here/../oracle/build.sh" crate

# cargo builds a package with one set of features, however many depend on it. So pest with its feature
# fast-line-col is a copy under another name, and so is the crate over it.
fast=$BUILD_DIR/pest-fast
found=
for folder in "$CRATES_DIR/pest" "$CRATES_DIR"/pest-[0-9]*; do
    [ ! -f "$folder/Cargo.toml" ] || found="$found $folder"
done
set -- $found
[ $# = 1 ] || { echo "CRATES_DIR has to hold one pest, and holds $#" >&2; exit 1; }
rm -rf "$fast"
cp -R "$1" "$fast"
sed 's/^name = "pest"$/name = "pest_fast"/' "$1/Cargo.toml" > "$fast/Cargo.toml"
# cargo shows the lints of a path's package, those of a registry's not
sed '/^#!\[warn(/d' "$1/src/lib.rs" > "$fast/src/lib.rs"
over=$BUILD_DIR/oracle-fast
rm -rf "$over"
cp -R "$BUILD_DIR/oracle-crate" "$over"
rm "$over/src/main.rs"
sed -e 's/^name = "oracle"$/name = "oracle_fast"/' \
    -e "s|^pest = .*|pest = { package = \"pest_fast\", path = \"$fast\", features = [\"fast-line-col\"] }|" \
    "$BUILD_DIR/oracle-crate/Cargo.toml" > "$over/Cargo.toml"

crate=$BUILD_DIR/bench-crate
rm -rf "$crate/src"
mkdir -p "$crate/src"
sed "s|@TOOLS@|$here/..|; s|@BUILD@|$BUILD_DIR|" "$here/Cargo.toml.in" > "$crate/Cargo.toml"
cp "$here"/src/*.rs "$crate/src/"
cd "$crate"
CARGO_TARGET_DIR="$BUILD_DIR/bench-target" cargo build --quiet --release --offline
cp "$BUILD_DIR/bench-target/release/bench" "$BUILD_DIR/bench"
