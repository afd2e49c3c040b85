#!/bin/sh
# Every check and test beside the gate, one after the other; `make check` runs it. What can't be run
# here is skipped, and why is said. At the end stands a line for each, and the status is 1 if one
# failed.
#   MAKE       the make that builds and tests the command (make)
#   GRIB_SRC   the folder of the crate grib, for the oracle
cd "$(dirname "$0")/../.." || exit 1
replay=target/bin/replay
scratch=$(mktemp -d) || exit 1
trap 'rm -rf "$scratch"' EXIT

# try NAME COMMAND..: runs the command and notes how it ended
try() {
    name=$1
    shift
    echo "== $name"
    if "$@"; then
        echo "ok       $name" >>"$scratch/ends"
    else
        echo "FAILED   $name: status $?" >>"$scratch/ends"
    fi
}

skip() {
    echo "== $1: skipped: $2"
    echo "skipped  $1: $2" >>"$scratch/ends"
}

# why NAME..: which of these are missing for a check; nothing if all are there
why() {
    for need in "$@"; do
        case $need in
        replay) [ -x "$replay" ] || echo "no $replay (make target/bin/replay makes it)" ;;
        eccodes) command -v codes_info >/dev/null || echo "eccodes is not installed" ;;
        crate) [ -n "${GRIB_SRC-}" ] || echo "GRIB_SRC names no folder of the crate grib" ;;
        *) command -v "$need" >/dev/null || echo "$need is missing" ;;
        esac
    done | paste -sd ';' | sed 's/;/; /g'
}

# where NEEDS NAME COMMAND..: tries the command where all that it needs is there
where() {
    # shellcheck disable=SC2086 # needs are words
    missing=$(why $1)
    shift
    if [ -z "$missing" ]; then try "$@"; else skip "$1" "$missing"; fi
}

samples() {
    codes_info -s | cut -d: -f1
}

# The stored lists are what the script makes of document 01, 02 and eccodes now.
stored_lists() {
    tests/lists/replay_lists.py --samples "$(samples)" --out "$scratch/lists" || return 1
    different=0
    for list in "$scratch"/lists/*/*; do
        cmp "$list" "crates/${list#"$scratch"/lists/}" || different=$((different + 1))
    done
    echo "$different stored lists differ"
    [ "$different" = 0 ]
}

oracle() {
    tests/oracle/build.sh "$scratch/oracle" &&
        tests/oracle/compare.py --replay "$replay" --oracle "$scratch/oracle" \
            --eccodes "$(dirname "$(samples)")"
}

try "quick checks" tests/checks/quick.sh
where eccodes "tables" tests/checks/tables.py
where eccodes "templates" tests/checks/templates.py
where clang-format "form of the C code" clang-format --dry-run --Werror \
    cli/*.c cli/*.h include/*.h bench/*.c bench/*.h tests/command/*.c
where eccodes "stored lists" stored_lists
where replay "blind pairs" tests/lists/blind_pairs.py "$replay"
where replay "missing falls" tests/lists/missing_falls.py "$replay"
try "command" "${MAKE:-make}" --no-print-directory test
where "replay eccodes" "peer" \
    tests/oracle/peer.py --replay "$replay" --eccodes "$(dirname "$(samples 2>/dev/null)")"
where "replay eccodes crate rustc" "oracle" oracle

echo "== all"
cat "$scratch/ends"
! grep -q '^FAILED' "$scratch/ends"
