#!/bin/sh
# Builds the program bench and the same job in plain Rust, runs both on the same loads, and prints what their
# calls cost: tools/speed.py tells how. docs/SPEED.md has the figures, and what they do and do not say.
#
# usage: tools/bench.sh [COMMAND..]
#
# The programs are run by COMMAND, if one is given: 'tools/bench.sh taskset -c 3' keeps to one processor.
# Needs the kit's rt, cargo, python3 and valgrind.
set -eu

cd "$(dirname "$0")/.."
loads=$(mktemp -d)
trap 'rm -rf "$loads"' EXIT

(cd crates/bench && rt run <stdin >/dev/null)
# the processor that rt builds for
(cd bench/plain && RUSTFLAGS='-C target-cpu=x86-64-v2' cargo build --release --quiet)
python3 tools/loads.py "$loads"
"$@" python3 tools/speed.py crates/bench/out/bench bench/plain/target/release/plain "$loads"
