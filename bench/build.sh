#!/usr/bin/env bash
# Proves and builds the driver, as crates/drill/out/drill: bench/build.sh, from the repository's root. It runs once on its sample deck.
set -eu
cd crates/drill
rt run -- data/deck.pbm memory-exact < stdin > /dev/null
