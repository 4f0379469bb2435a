#!/bin/sh
# Compares more calls of the archive with the model than ./test does, and other ones each time: CALLS single draws, as many single
# respond calls, and lists of calls and pairs of lists by the same measure. The last line says how many calls were compared in all.
# 450,000, which is over a million calls in all, take some two minutes on two cores.
#
# usage: hosts/rust/wrapper/tests/long_run.sh [CALLS [SEED]]
set -eu
cd "$(dirname "$0")/../../../.."

scripts/need --rust
# Runs of up to a million calls that start in different seconds have no seed in common.
BLISS_CALLS=${1:-450000}
BLISS_SEED=${2:-$(($(date +%s) * 1000000))}
export BLISS_CALLS BLISS_SEED
echo "seeds from $BLISS_SEED"
scripts/cargo test --quiet -p bliss-box --test against_model
