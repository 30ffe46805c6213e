#!/bin/sh
# Builds the benchmark for release, or the twin as a library.
#
#     bench/build.sh OUTPUT ARCHIVE      the benchmark, with the product's libhempmallet.a
#     bench/build.sh OUTPUT              the same without the product: the twin and Algorithm 1
#     bench/build.sh --library OUTPUT    the twin as an archive with the console's three functions
set -eu
program=main
if [ "${1-}" = --library ]; then
    program=lib
    shift
fi
if [ $# -lt 1 ] || [ $# -gt 2 ]; then
    echo "usage: bench/build.sh [--library] OUTPUT [ARCHIVE]" >&2
    exit 1
fi
output=$1
source=$(dirname "$0")/src/$program.rs
set -- --edition 2021 -C opt-level=3 -C codegen-units=1 "$source" -o "$output" ${2:+--cfg product -C "link-arg=$2"}
if [ $program = lib ]; then
    set -- --crate-type staticlib --crate-name twin -C panic=abort "$@"
fi
rustc "$@"
