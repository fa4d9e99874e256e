#!/bin/sh
# Builds the oracle: the crate's own compile2 over span lists.
#   SOURCE_DIR=.. CRATES_DIR=.. BUILD_DIR=.. tools/oracle/build.sh
# SOURCE_DIR  the src folder of handlebars 6.4.4
# CRATES_DIR  a cargo directory source with pest, serde_json, derive_builder and thiserror
# BUILD_DIR   a scratch folder, by a path from the root; the result is $BUILD_DIR/oracle
# cargo is taken from PATH, and fetches nothing.
set -eu
here=$(cd "$(dirname "$0")" && pwd)
: "${SOURCE_DIR:?set SOURCE_DIR to the src folder of handlebars 6.4.4}"
: "${CRATES_DIR:?set CRATES_DIR to a cargo directory source}"
: "${BUILD_DIR:?set BUILD_DIR to a scratch folder}"
crate=$BUILD_DIR/oracle-crate
mkdir -p "$crate/src/json" "$BUILD_DIR/.cargo"

sed "s|@TOOLS@|$here/..|" "$here/Cargo.toml.in" > "$crate/Cargo.toml"
cp -f "$here"/src/*.rs "$crate/src/"
cp -f "$SOURCE_DIR/json/path.rs" "$crate/src/json/"
cp -f "$SOURCE_DIR/support.rs" "$SOURCE_DIR/error.rs" "$crate/src/"
# The patch to template.rs: two added lines, which count the turns of compile2's loop. Nothing in
# compile2 reads the count.
sed -e 's/^                let rule = pair\.as_rule();$/&\n                crate::walks(\&pair);/' \
    -e 's/^                if prev_end < source\.len() {$/                crate::walk_ends();\n&/' \
    "$SOURCE_DIR/template.rs" > "$crate/src/template.rs"
changed=$(diff "$SOURCE_DIR/template.rs" "$crate/src/template.rs" | grep -c '^[<>]') || true
[ "$changed" = 2 ] || { echo "template.rs is not the one that the patch is for" >&2; exit 1; }

cat > "$BUILD_DIR/.cargo/config.toml" <<CONFIG
[source.crates-io]
replace-with = "local"
[source.local]
directory = "$CRATES_DIR"
CONFIG
# a caller that only wants the crate stops here
[ "${1:-}" != crate ] || exit 0
cd "$crate"
CARGO_TARGET_DIR="$BUILD_DIR/target" cargo build --quiet --release --offline
cp "$BUILD_DIR/target/release/oracle" "$BUILD_DIR/oracle"
