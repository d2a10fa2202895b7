#!/bin/sh
# tests/jobs.sh [KILOBYTES]: prints how many checks at once are asked of the prover where it is to be told: as many as there are processors, and no more
# than there is memory for, up to 2.5 GB each (KILOBYTES). `rt ci` finds its own number. RT_JOBS, where it is set, is another one.
set -eu
jobs=$(nproc 2>/dev/null || echo 1)
room=$(awk -v each="${1:-2500000}" '/^MemAvailable:/ { print int($2 / each) }' /proc/meminfo 2>/dev/null || echo 4)
[ "$jobs" -le "${room:-4}" ] || jobs=${room:-4}
[ "$jobs" -ge 1 ] || jobs=1
echo "${RT_JOBS:-$jobs}"
