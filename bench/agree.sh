#!/usr/bin/env bash
# Sets the proved driver against the plain one, against answers worked by hand and against Netpbm: bench/agree.sh, from the
# repository's root, after the driver was built (`bench/build.sh`). Needs cargo, python3 and Debian's netpbm. Takes about two minutes.
set -eu
proved=crates/drill/out/drill
plain=bench/plain/target/release/plain
cargo build --quiet --release --offline --manifest-path bench/plain/Cargo.toml
bench/limits.py $proved $plain
bench/worked.py $proved $plain
bench/netpbm.py $proved
bench/compare.py --driver $proved --plain $plain --cases 6000 --readers
bench/compare.py --driver $proved --plain $plain --cases 3000
