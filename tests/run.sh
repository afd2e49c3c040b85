#!/bin/sh
# Runs a program whichever processor this is:
#   tests/run.sh PROGRAM [ARG..]
# The programs under target/bin are x86-64 code: elsewhere the emulator runs them, with the C
# library of that processor. A program of this processor's own is run as it is. QEMU names another
# emulator, QEMU_LD_PREFIX another folder of that C library.
set -u

fail() {
    echo "tests/run.sh: $*" >&2
    exit 2
}

[ $# -gt 0 ] || fail "usage: tests/run.sh PROGRAM [ARG..]"
[ -x "$1" ] || fail "$1 is no program (make target/bin/NAME makes it)"

# The head of a program of x86-64: "ELF" behind an octet 7f, and 62 (3e) for the processor.
case $(uname -m),$(od -An -v -tx1 -N20 "$1" | tr -d ' \n') in
x86_64,*) exec "$@" ;;
*,7f454c46????????????????????????????3e00) ;;
*) exec "$@" ;;
esac

emulator=${QEMU:-qemu-x86_64}
library=${QEMU_LD_PREFIX:-/usr/x86_64-linux-gnu}
command -v "$emulator" >/dev/null || fail "$emulator is missing: install the package qemu-user"
[ -e "$library/lib64/ld-linux-x86-64.so.2" ] ||
    fail "no C library of x86-64 in $library: install the package libc6-amd64-cross"
exec "$emulator" -L "$library" "$@"
