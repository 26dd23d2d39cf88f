#!/usr/bin/env bash
# Builds the programs that only measure, benchmarks/NAME/main.rt.txt, into $TMPDIR/abd_benchmark/programs/crates/NAME/out/NAME.
# They are kept out of crates.txt, so that the gate needn't prove them: here they are crates of a copy of the repository, over what
# earlier checks of its crates kept (`cd crates/abd && rt run` first spares the proof of all below it).
set -eu
here=$(cd "$(dirname "$0")" && pwd)
room=${TMPDIR:-/tmp}/abd_benchmark/programs
rm -rf "$room"
mkdir -p "$room"
cp -r "$here/../HANDLES" "$here/../crates.txt" "$here/../crates" "$room"

# A crate NAME over these libraries; its words are what `rt run` gives it.
build() {
  name=$1 libraries=$2
  shift 2
  mkdir -p "$room/crates/$name/src"
  cp "$here/$name/main.rt.txt" "$room/crates/$name/src/main.rt"
  echo "$name: $libraries" >> "$room/crates.txt"
  (cd "$room/crates/$name" && rt run -- "$@")
}

build read_speed "counted_devices history_file" "$here/../examples/two_calls.history"
build write_speed "counted_devices file_format history_file" "$here/../examples/two_calls.history"
build order_speed "tag recorder counted_devices history_file parallel_keys" "$here/../examples/two_calls.history" "$here/../examples/two_calls.orders"
build check_speed "tag recorder counted_devices history_file parallel_keys" "$here/../examples/two_calls.history" "$here/../examples/two_calls.orders"
build store_speed "tag recorder certificate_check world_steps seats node_threads" 4 50 2 3 5 7
build merge_speed "tag recorder witness_order world_steps fault_script store_orders" 1000 100
build step_speed "tag world_steps random_steps"
