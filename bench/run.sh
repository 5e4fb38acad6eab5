#!/usr/bin/env bash
# Measures this map beside the Rust crate `dashmap`, and prints a table of ratios.
#
# usage: bench/run.sh [WORK..]     with no WORK: all of them
#
# It wants Debian's packages librust-dashmap-dev and librust-bstr-dev, cargo, and rt. It takes the `tool_bench` that the gate left, or else proves
# and builds it, builds the Rust program offline from Debian's packages, runs both by turns, five times each, and ends with status 1 where two
# checksums differ. It prints the best times, and the Rust crate's time by ours, above 1 where this map is faster: of the best, and the median of
# the rounds.
set -euo pipefail
top=$(CDPATH='' cd -- "$(dirname -- "$0")/.." && pwd)
registry=/usr/share/cargo/registry
rounds=${ROUNDS:-5}
works=("$@")
[ "$#" -gt 0 ] || works=(hit caller-hit miss small-hit small-miss hostile insert insert0 worst remove iterate alone-iterate view-iterate retain get-mut
    small-update small-cycle alter entry read exchange grow contend hold extend extend0 par-extend par-extend0 par-map-collect memory
    hit-mask miss-mask insert0-mask remove-mask read-mask exchange-mask grow-mask
    string-hit string-insert0 string-remove memo-hit memo-mix random-hit random-insert0 random-remove)

[ -d "$registry" ] || { echo "run.sh: install librust-dashmap-dev first" >&2; exit 2; }
(cd "$top/bench/rust" && cargo build --release --offline --quiet \
    --config 'source.crates-io.replace-with="debian"' --config "source.debian.directory=\"$registry\"")
theirs=$top/bench/rust/target/release/rust_bench
ours=$("$top/.ci/built" tool_bench)

# Both programs, by turns, each first in every other round: prints the best NS an operation of ours and of theirs, the BYTES of both, and the
# median of the rounds' ratios.
rounds_of() {
    for round in $(seq "$rounds"); do
        if ((round % 2)); then
            o=$("$ours" "$@") t=$("$theirs" "$@")
        else
            t=$("$theirs" "$@") o=$("$ours" "$@")
        fi
        echo "$o $t"
    done | awk '{ o = $2 / $4; t = $10 / $12; bytes = $8 / $4 " " $16 / $12
                  if ($6 != $14 || (NR > 1 && $6 != sum)) bad = 1; sum = $6
                  if (NR == 1 || o < ours) ours = o; if (NR == 1 || t < theirs) theirs = t
                  for (i = NR; i > 1 && ratio[i - 1] > t / o; i--) ratio[i] = ratio[i - 1]; ratio[i] = t / o }
                END { if (bad) print "DIFFER"; else print ours, theirs, bytes, ratio[int((NR + 1) / 2)] }'
}

theirs_is=$(cd "$registry" && ls -d dashmap-* | head -1)
echo "| work | threads | shards | ours | $theirs_is | best | median |"
echo '|---|---|---|---|---|---|---|'
status=0
for work in "${works[@]}"; do
    # How many threads, over how many shards.
    places="1/16 2/16 4/16"
    case $work in
    memory | iterate | *-iterate | retain | small-hit | small-miss | hostile | small-cycle | worst | extend | extend0) places=1/16 ;;
    contend | hold | par-map-collect) places=4/16 ;;
    string-* | random-*) places="1/16 4/16" ;;
    read* | exchange* | grow*) places="$places 16/16 16/256 64/16 64/256" ;;
    esac
    for place in $places; do
        threads=${place%/*} shards=${place#*/}
        found=$(rounds_of "$work" "$threads" "$shards")
        if [ "$found" = DIFFER ]; then
            echo "| $work | $threads | $shards | the checksums differ | | | |"
            status=1
        elif [ "$work" = memory ]; then
            echo "$found" | awk '{ printf "| memory | 1 | 16 | %.1f bytes | %.1f bytes | %.2f | |\n", $3, $4, $4 / $3 }'
        else
            echo "$found" | awk -v w="$work" -v t="$threads" -v s="$shards" \
                '{ printf "| %s | %s | %s | %.1f ns | %.1f ns | %.2f | %.2f |\n", w, t, s, $1, $2, $2 / $1, $5 }'
        fi
    done
done
exit $status
