#!/usr/bin/env bash
# compare_simulate.sh [COUNT [LINES [FIRST]]]
# Runs `abd simulate` and plain_simulate on COUNT random scripts of about LINES commands, seeds from FIRST on, and on every example,
# and names the first script of which they make another history, other messages or another exit status. The program has to be
# built before (cd crates/abd && rt run), or named by ABD.
set -eu
here=$(cd "$(dirname "$0")" && pwd)
abd=${ABD:-$here/../crates/abd/out/abd}
count=${1:-100} lines=${2:-150} first=${3:-1}
[ -x "$abd" ] || { echo "no program at $abd" >&2; exit 2; }
work=$(mktemp -d)
cp -r "$here/plain_simulate/." "$work/plain"
(cd "$work/plain" && cargo build --release --offline --quiet)
plain=$work/plain/target/release/plain_simulate

# Both programs run the script; what differs is told, and stays.
compare() {
  ours=0 theirs=0
  "$abd" simulate "$1" > "$work/abd.history" 2> "$work/abd.messages" || ours=$?
  "$plain" "$1" > "$work/plain.history" 2> "$work/plain.messages" || theirs=$?
  for what in history messages; do
    if ! cmp -s "$work/abd.$what" "$work/plain.$what"; then
      echo "$1: another $what ($2); see $work/abd.$what and $work/plain.$what"
      diff -a "$work/abd.$what" "$work/plain.$what" | head -n 5 | cut -c 1-200
      exit 1
    fi
  done
  [ "$ours" = "$theirs" ] || { echo "$1: status $ours, and $theirs of the plain program ($2)"; exit 1; }
}

for example in "$here"/../examples/*.script; do
  compare "$example" example
done
for seed in $(seq "$first" $((first + count - 1))); do
  python3 "$here/random_script.py" --seed "$seed" --lines "$lines" > "$work/random.script"
  compare "$work/random.script" "seed $seed"
done
# What is no file, is a directory, or is empty.
for name in "$work/missing" "$work" /dev/null; do
  compare "$name" "no script"
done
# A full device.
said_of() {
  status=0
  "$@" > /dev/full 2> "$work/said" || status=$?
  echo "status $status: $(cat "$work/said")"
}
ours=$(said_of "$abd" simulate "$example") theirs=$(said_of "$plain" "$example")
[ "$ours" = "$theirs" ] || { echo "a full device: $ours, and of the plain program $theirs"; exit 1; }
rm -r "$work"
echo "$count random scripts and the examples: the same histories, messages and exit statuses"
