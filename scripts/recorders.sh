#!/usr/bin/env bash
# Tests what docs/using has to record with, by the built program; what a recorder has to refuse is tested by its own test:
#   scripts/recorders.sh ABD            Python; Java, Go and Rust where their compilers are (javac, go, rustc)
#   scripts/recorders.sh ABD python     Python alone: the recorder, and what makes histories of other files
set -eu
abd=$(realpath "$1")
only=${2:-}
cd "$(dirname "$0")/../docs/using"
export PYTHONDONTWRITEBYTECODE=1
room=$(mktemp -d)
trap 'rm -rf "$room"' EXIT

# Has four threads' history of that language justified and checked, and decided without its notes.
judge() {
  "$abd" justify "$room/$1.history" > "$room/$1.orders"
  "$abd" check "$room/$1.history" "$room/$1.orders" | sed "s/^/$1: /"
  grep -v '"row":"note"' "$room/$1.history" > "$room/$1.bare"
  "$abd" decide "$room/$1.bare" | sed "s/^/$1: /"
}

python3 recorder_test.py > "$room/python.history"
judge python
python3 load_test.py "$abd"
python3 jepsen_test.py
python3 rank_tags_test.py "$abd"
if [ "$only" = python ]; then
  exit 0
fi
if command -v javac > /dev/null; then
  javac -d "$room" Recorder.java RecorderTest.java
  java -cp "$room" RecorderTest > "$room/java.history"
  judge java
fi
if command -v go > /dev/null; then
  GOCACHE="$room/go" go run recorder.go recorder_main.go > "$room/go.history"
  judge go
fi
if command -v rustc > /dev/null; then
  rustc --edition 2021 -o "$room/recorder_main" recorder_main.rs
  "$room/recorder_main" > "$room/rust.history"
  judge rust
fi
