#!/bin/sh
# The quick checks: they read files alone and take some seconds. The gate runs them before it proves
# anything, and `make check` first of all. Each says in one line what it found. The first that fails
# ends this with its status; what it said stands above the line that names it.
cd "$(dirname "$0")/../.." || exit 1
command -v python3 >/dev/null || { echo "quick checks: python3 is missing" >&2; exit 1; }

for check in trace.py promised.py reading_path.py widths.py 'contracts.py --check' \
    'templates.py --check' '../oracle/planted.py --fits'; do
    # shellcheck disable=SC2086 # a check and its option are two words
    said=$(python3 -B tests/checks/$check 2>&1) || {
        status=$?
        printf '%s\nquick checks: tests/checks/%s failed\n' "$said" "$check" >&2
        exit "$status"
    }
    echo "$check: $(echo "$said" | tail -n 1)"
done
