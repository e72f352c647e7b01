#!/usr/bin/env bash
# Random runs of both programs: settings, data, changed bytes, cut files, option texts, superblocks and command lines.
# Each run is compared with a second reading of docs/DEFINITIONS.md in Python, and one in eight with Debian's programs
# too, as far as docs/DIFFERENCES.md lets them agree. The code is in tests/soak/.
#
#   tests/soak.sh                  the self-test, and 20 seconds of cases, or with RUNS=all ten minutes, of a seed that
#                                  is drawn and printed
#   tests/soak.sh SEED=N SECONDS=N [CASES=N] [WORKERS=N]
#   tests/soak.sh SEED=N CASE=N    repeats one case, as a failed one is printed
#   tests/soak.sh --self-test      runs faulty programs, and passes if each is seen
set -u
cd "$(dirname "$0")/.."
. tests/lib/checks.sh
has_program fsverity
has_program veritysetup
needs python3 python3
needs_other veritysetup cryptsetup-bin
needs_other fsverity fsverity
export BIN
if [ $# -gt 0 ]; then
    tests/soak/soak.py "$@"
    exit
fi
if ! tests/soak/soak.py --self-test; then
    fail 'the self-test' 'the lines above say what passes or fails and should not'
    finish
    exit 1
fi
seconds=20
if [ "${RUNS:-}" = all ]; then seconds=600; fi
tests/soak/soak.py SEED= SECONDS=$seconds
