#!/usr/bin/env bash
# The processor time of a ticket through the ring and of an errand over the desk, in the tests that `rt test` built.
set -eu
cd "$(dirname "$0")/../crates"
runs=20

# crate, test, how many jobs the test passes
time_of() {
    local binary="$1/out/$1_tests"
    [ -x "$binary" ] || { echo "run rt test in crates/$1 first"; exit 1; }
    local TIMEFORMAT="%U %S"
    { time for _ in $(seq "$runs"); do "$binary" "tests::$2" >/dev/null 2>&1; done; } 2>&1 |
        awk -v what="$2" -v count="$(($3 * runs))" '{ printf "%s: %.0f ns a job\n", what, ($1 + $2) * 1e9 / count }'
}

time_of ev_ring the_owner_alone_passes_a_hundred_thousand_jobs 100000
time_of ev_ring four_threads_pass_a_hundred_thousand_jobs 100000
time_of ev_desk two_threads_pass_ten_thousand_errands 10000
