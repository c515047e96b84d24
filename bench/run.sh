#!/usr/bin/env bash
# The bench: the run program against the sharpest server that we can write in ordinary Rust, on four kinds of days.
#
#     bench/run.sh [--before PATH [--short]] [--more] [--metered] [--groups] [PROGRAM]     (target/bin/run by default)
#     bench/run.sh --build                                                                 only builds the server
#
# --before adds a second run program, say of the landing before this one, timed in turn with the others; with --short it gets the
# same events in records of 13 bytes, as programs before order 4 of document 02 read them. --more adds longer days
# and books with more entries, --metered the four kinds of days with every entry tracked, the switch off and on, --groups those with
# open uses where every entry is a group pack (both without the program of --before, which may know no such images). EVENTS (2000000),
# RUNS (7) and SEED (1) may be set in the environment. All files go to target/bench. One process runs at a time.
set -eu
program= before= more= build=
while [ $# -gt 0 ]; do
    case $1 in
    --before) before=$(realpath "$2") && shift ;;
    --more) more="$more --more" ;;
    --metered) more="$more --metered" ;;
    --groups) more="$more --groups" ;;
    --short) more="$more --short" ;;
    --build) build=1 ;;
    *) program=$(realpath "$1") ;;
    esac
    shift
done
cd "$(dirname "$0")/.."
mkdir -p target/bench
for each in server days; do
    if [ ! -x target/bench/$each ] || [ bench/$each.rs -nt target/bench/$each ]; then
        rustc --edition 2021 -C opt-level=3 -C codegen-units=1 -o target/bench/$each bench/$each.rs
    fi
done
[ -z "$build" ] || exit 0
exec python3 bench/measure.py target/bench $more "run=${program:-$PWD/target/bin/run}" ${before:+"before=$before"} \
    "server=$PWD/target/bench/server"
