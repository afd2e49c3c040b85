#!/bin/sh
# Builds the oracle: the crate grib's own code behind a driver of ours.
#   GRIB_SRC=<the crate's folder, with src/ in it> tests/oracle/build.sh OUT
# makes OUT/oracle. Needs rustc and eccodes' tables (TABLE_4_0=<file> names another code table 4.0).
# The crate's files are linked to, never copied or edited.
set -eu
: "${GRIB_SRC:?the folder of the crate grib}"
[ $# -eq 1 ] || { echo "usage: GRIB_SRC=DIR build.sh OUT" >&2; exit 2; }
here=$(cd "$(dirname "$0")" && pwd)
crate=$(cd "$GRIB_SRC" && pwd)
mkdir -p "$1/tree/datatypes" "$1/tree/encoder/message"
out=$(cd "$1" && pwd)

for file in reader parser helpers datatypes/sections encoder/message encoder/message/impls; do
    [ -r "$crate/src/$file.rs" ] || { echo "no src/$file.rs in GRIB_SRC" >&2; exit 2; }
    ln -sfn "$crate/src/$file.rs" "$out/tree/$file.rs"
done
for file in main standins watch plan datatypes encoder; do
    ln -sfn "$here/shim/$file.rs" "$out/tree/$file.rs"
done
# Modules that message.rs names and nothing here uses.
for file in multigrid multiproduct single; do : > "$out/tree/encoder/message/$file.rs"; done

# The crate's list of supported templates is not at hand. In its place stands WMO code table 4.0,
# version 30, without reserved rows and without 65535; requests of kind O have every number in it.
table=${TABLE_4_0:-$(codes_info -d)/grib2/tables/30/4.0.table}
[ -r "$table" ] || { echo "no code table 4.0; set TABLE_4_0" >&2; exit 2; }
{
    echo "use crate::standins::codetables::Supported;"
    echo "pub(crate) const SUPPORTED_PROD_DEF_TEMPLATE_NUMBERS: Supported = Supported(&["
    awk '$1 ~ /^[0-9]+$/ && $1 != 65535 { print "    " $1 "," }' "$table"
    echo "]);"
} > "$out/tree/codetables.rs"

# Overflow checks on: what the crate subtracts below zero stops it, and does not wrap round.
"${RUSTC:-rustc}" --edition 2024 --crate-name oracle -A warnings -C debuginfo=0 -C opt-level=2 \
    -C overflow-checks=on -o "$out/oracle" "$out/tree/main.rs"
echo "built $1/oracle"
