#!/usr/bin/env bash
# Times `crates/example_wordcount` beside the same program over the Rust crate `dashmap`, and compares what they count with what Python counts.
#
# usage: bench/wordcount.sh [MEGABYTES]     with no number: 100
#
# It wants Debian's packages librust-dashmap-dev and librust-bstr-dev, cargo, python3 and rt. It takes the `example_wordcount` that the gate left, or
# else proves and builds it. It makes a text, and bytes that are none, runs both programs by turns, five times each, at 1, 2, 4 and 16 threads,
# and ends with status 1 where a count differs. It prints the best times, and the Rust program's time by ours, the median of the rounds.
set -euo pipefail
top=$(CDPATH='' cd -- "$(dirname -- "$0")/.." && pwd)
registry=/usr/share/cargo/registry
rounds=${ROUNDS:-5}
room=$(mktemp -d)
trap 'rm -rf "$room"' EXIT

(cd "$top/bench/rust" && cargo build --release --offline --quiet \
    --config 'source.crates-io.replace-with="debian"' --config "source.debian.directory=\"$registry\"")
theirs=$top/bench/rust/target/release/wordcount
ours=$("$top/.ci/built" example_wordcount)

python3 - "$room" "${1:-100}" <<'PYTHON'
import random, re, sys
from collections import Counter
from pathlib import Path

room, size = Path(sys.argv[1]), int(sys.argv[2]) * 1_000_000
random.seed(1)
letters = "etaoinshrdlucmfwygpbvkjxqzäéßλд"
words = ["".join(random.choices(letters, range(len(letters), 0, -1), k=random.randint(1, 10))) for _ in range(50_000)]
some = " ".join(random.choices(words, [1 / rank for rank in range(1, len(words) + 1)], k=1_000_000)).encode()
text = b"\n".join([some] * (size // len(some) + 1))
bytes_of = bytes(random.choices(b" ab9\xff\x80\xc3\xa9\xd0\xbb", k=1_000_000))
for name, data in ("text", text), ("bytes", bytes_of):
    (room / name).write_bytes(data)
    found = Counter(re.findall(r"[^\W_]+", data.decode(errors="replace")))
    rows = sorted(((-count, word.encode()) for word, count in found.items()))[:1000]
    (room / f"{name}.python").write_bytes(b"".join(b"%d %s\n" % (-count, word) for count, word in rows))
PYTHON

# One run of a program, in milliseconds.
time_of() {
    local from=$(date +%s%N)
    "$@" >/dev/null
    echo $((($(date +%s%N) - from) / 1000000))
}

status=0
echo '| threads | ours | Rust | ratio |'
echo '|---|---|---|---|'
for threads in 1 2 4 16; do
    for name in text bytes; do
        "$ours" -t "$threads" -n 1000 "$room/$name" | cmp -s - "$room/$name.python" ||
            { echo "wordcount.sh: a count of $name differs at $threads threads" >&2; status=1; }
    done
    for _ in $(seq "$rounds"); do
        o=$(time_of "$ours" -t "$threads" -n 1000 "$room/text") r=$(time_of "$theirs" -t "$threads" -n 1000 "$room/text")
        echo "$((1000 * r / o)) $o $r"
    done | sort -n | awk -v t="$threads" '{ ratio[NR] = $1 / 1000 } NR == 1 || $2 < o { o = $2 } NR == 1 || $3 < r { r = $3 }
        END { printf "| %s | %d ms | %d ms | %.2f |\n", t, o, r, ratio[int((NR + 1) / 2)] }'
done
exit $status
