#!/usr/bin/env bash
# Builds the proved driver and the plain one, and times them side by side: bench/speed.sh [RUNS], from the repository's root.
set -eu
bench/build.sh
cargo build --quiet --release --offline --manifest-path bench/plain/Cargo.toml
bench/speed.py "$@"
