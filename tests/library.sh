# shellcheck shell=bash
# Sourced in the repository's root, with the names of the commands that are needed: tests for these first, then builds the library where it isn't built.
# To build is to prove: from nothing it takes minutes. Exports BANQUET_LIB, the folder of libcapi.a, and CARGO_TARGET_DIR. If the caller set BANQUET_LIB,
# that folder is used as it is.
root="$PWD"
self="${0##*/}"
source scripts/build.sh
need_tools "$@"

export CARGO_TARGET_DIR="$root/target/cargo"
if [ -n "${BANQUET_LIB:-}" ]; then
    [ -f "$BANQUET_LIB/libcapi.a" ] || {
        say "there is no $BANQUET_LIB/libcapi.a, which BANQUET_LIB names"
        exit 2
    }
    BANQUET_LIB="$(cd "$BANQUET_LIB" && pwd)"
    say "the library is $BANQUET_LIB/libcapi.a"
else
    BANQUET_LIB="$root/target/staticlib"
    build capi target/staticlib/libcapi.a || exit 2
fi
export BANQUET_LIB
