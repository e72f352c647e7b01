#!/usr/bin/env bash
# Each wrong body is refused, for a contract that it doesn't meet (tests/wrong_bodies/wrong_bodies.py): here those
# without a verdict that holds, and a sample of the others, or with RUNS=all all of them. With words just these bodies
# are tried.
set -u
cd "$(dirname "$0")/.."
. tests/lib/checks.sh
needs rt 'none: the Rattle toolchain'
needs python3 python3
sample=40
if [ "${RUNS:-few}" = all ]; then sample=1000000; fi
if [ $# -eq 0 ]; then set -- --sample $sample ${SEED:+--seed "$SEED"}; fi
tests/wrong_bodies/wrong_bodies.py "$@"
