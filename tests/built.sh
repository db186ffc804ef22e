# shellcheck shell=bash disable=SC2034 # the scripts that source it use what it sets
# What the scripts build and where it then stands; they source this file after counting.sh.
#
#   archive        the product's archive, or another that ROWPROVER_ARCHIVE names to try a script itself
#   build_archive  proves and builds the product's
#   second         the folder of the second program and its harnesses
#   build_second   builds them
#   in_rust        runs a command where their source is

needs cargo cargo

archive=${ROWPROVER_ARCHIVE:-crates/rowprover/out/librowprover.a}
if [[ -n ${ROWPROVER_ARCHIVE:-} ]]; then
    printf 'not the product: %s\n' "$archive"
    build_archive() { :; }
else
    build_archive() { (cd crates/rowprover && rt lib); }
fi

export CARGO_TARGET_DIR=$PWD/host/rust/target
second=$CARGO_TARGET_DIR/release
in_rust() { (cd host/rust && "$@"); }
build_second() { in_rust cargo build -j1 --release --offline; }
