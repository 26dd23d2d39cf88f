#!/usr/bin/env bash
# Records etcd and Redis with faults, each in a way that is atomic and in one that isn't, and compares what `abd` says with that:
#   scripts/real_stores.sh ABD [RUNS]     a minute for each of RUNS (1)
# It wants Debian's packages etcd-server and redis-server. A run of a way that isn't atomic is as it should be if a key shows it. Keys are
# counted, and of those that aren't atomic the stale reads.
set -eu
abd=$(realpath "$1")
runs=${2:-1}
cd "$(dirname "$0")/../docs/using"
export PYTHONDONTWRITEBYTECODE=1
room=$(mktemp -d)
trap 'rm -rf "$room"' EXIT
failed=0

for needed in etcd:etcd-server redis-server:redis-server; do
  if ! command -v "${needed%:*}" > /dev/null; then
    echo "real_stores: there is no program ${needed%:*}: apt-get install ${needed#*:}" >&2
    exit 1
  fi
done
etcd --version | head -1
redis-server --version | cut -d' ' -f1-3

# Says what stands in the lines of `abd decide --json`: keys by verdict, stale reads.
counts() {
  python3 -c '
import json, sys
keys = [json.loads(line) for line in sys.stdin]
wrong = [it for it in keys if it["verdict"] == "not atomic"]
stale, reads = (sum(it[what] for it in wrong) for what in ("stale", "reads"))
print(f"{len(keys) - len(wrong)} keys of {len(keys)} atomic" + (f", {stale} of {reads} reads of the others stale" if wrong else ""))'
}

# Records once, and has it decided: record STATUS SCRIPT WORD.., where STATUS is what `abd decide` should end with.
record() {
  wanted=$1
  shift
  if ! timeout 120 python3 "$@" > "$room/run.history" 2> "$room/said"; then
    cat "$room/said"
    return 1
  fi
  status=0
  "$abd" decide --json "$room/run.history" > "$room/keys" || status=$?
  echo "$*: $(counts < "$room/keys"); $(grep -c '"row":"invoke"' "$room/run.history") calls, $(grep -o '[0-9]* faults' "$room/said")"
  if [ "$status" -ne "$wanted" ]; then
    echo "real_stores: abd decide ended with $status, not with $wanted" >&2
    return 1
  fi
}

for _ in $(seq "$runs"); do
  record 0 etcd.py --reads linearizable || failed=1
  record 1 etcd.py --reads serializable || failed=1
  record 0 redis.py --way primary || failed=1
  record 1 redis.py --way replica || failed=1
  record 1 redis.py --way failover || failed=1
done
exit "$failed"
