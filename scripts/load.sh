#!/usr/bin/env bash
# Loads of random options: each run's history is justified and checked, every key has to be yes, and each read of k0 by
# caller 1 has to give what caller 1 wrote there last. Then 16 callers of 10,000 calls each, and 16 of 2,000 calls each in
# four halls of 15 replicas, with parcels lost and doubled: their time and their memory.
#
#   scripts/load.sh [SEED [RUNS]]     with the built program, crates/abd/out/abd; by hand, not in the gate
set -euo pipefail
cd "$(dirname "$0")/.."
abd=crates/abd/out/abd
seed=${1:-1} runs=${2:-100}
work=$(mktemp -d)
trap 'rm -rf "$work"' EXIT

options() {
    python3 - "$seed" "$1" <<'PY'
import random, sys
r = random.Random(f"{sys.argv[1]} {sys.argv[2]}")
replicas = r.randint(1, 15)
halls = r.choice([1, 1, 2, 3, 4, 64])
words = ["--replicas", replicas, "--callers", r.randint(1, 16), "--calls", r.randint(1, 60), "--keys", r.randint(1, 8)]
words += ["--drop", r.choice([0, 2, 3, 5, 11]), "--double", r.choice([0, 1, 2, 7]), "--halls", halls]
words += ["--reads", r.choice(["full", "short"]), "--rounds", r.choice([2, 20, 1000])]
if r.random() < 0.3:
    words += ["--show", r.randrange(halls)]
if r.random() < 0.4:
    votes = [r.randint(1, 9) for _ in range(replicas)]
    ask = r.randint(1, sum(votes))
    words += ["--votes", "".join(map(str, votes)), "--ask", ask, "--put", r.randint(sum(votes) + 1 - ask, sum(votes))]
print(*words)
PY
}

own_reads() {
    python3 - "$1" <<'PY'
import json, sys
written, pending = None, None
for line in open(sys.argv[1], encoding="utf-8"):
    row = json.loads(line)
    of = (row.get("hall"), row.get("call"))
    if row.get("row") == "invoke" and row["client"] == 1 and row["key"] == "k0":
        written, pending = row.get("value", written), of if row["do"] == "read" else None
    elif row.get("row") == "respond" and of == pending and row.get("value") != written:
        sys.exit(f"caller 1 read {row.get('value')} and had written {written}")
PY
}

for ((run = 1; run <= runs; run++)); do
    words=$(options "$run")
    if ! timeout 120 $abd run $words > "$work/h" 2> "$work/told" ||
        ! $abd justify "$work/h" > "$work/o" || ! $abd check "$work/h" "$work/o" > "$work/lines" ||
        grep -v ': yes$' "$work/lines" || ! own_reads "$work/h"; then
        echo "not all yes: abd run $words"
        cat "$work/told"
        exit 1
    fi
done
echo "$runs loads of seed $seed: all yes"

# Runs with these options, and says what it took; each key has to be yes.
large() {
    /usr/bin/time -f "%e s, %M KiB" $abd run "$@" --drop 5 --double 7 > "$work/h"
    $abd justify "$work/h" > "$work/o"
    $abd check "$work/h" "$work/o"
}

large --callers 16 --calls 10000
large --callers 16 --calls 2000 --replicas 15 --keys 8 --halls 4
