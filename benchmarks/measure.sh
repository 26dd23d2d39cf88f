#!/usr/bin/env bash
# Times `abd check` and `abd justify` beside plain Rust on histories of 1,000,000 calls: over 100 keys, over 1 key and over 100,000 keys,
# and `abd simulate` beside plain Rust on a script of 1,000,000 random steps and on one of 100,000 calls. On 100 keys the programs run in
# turn, nine times each (TIMES says how often), and on the others three times; reading alone is timed with all processors and with one.
set -eu
here=$(cd "$(dirname "$0")" && pwd)
abd=$here/../crates/abd/out/abd
work=${TMPDIR:-/tmp}/abd_benchmark
mkdir -p "$work/plain/.cargo"
cp -r "$here/plain_check/." "$work/plain"
printf '[source.crates-io]\nreplace-with = "debian"\n[source.debian]\ndirectory = "/usr/share/cargo/registry"\n' > "$work/plain/.cargo/config.toml"
(cd "$work/plain" && cargo build --release --offline --quiet)
plain=$work/plain/target/release/plain_check
for keys in 100 1 100000; do
  [ -s "$work/$keys.orders" ] || python3 "$here/big_history.py" --calls 1000000 --keys $keys --clients 16 \
    --history "$work/$keys.history" --orders "$work/$keys.orders"
  files="$work/$keys.history $work/$keys.orders"
  times=3
  [ $keys -ne 100 ] || times=${TIMES:-9}
  echo "== 1,000,000 calls, $keys keys"
  python3 "$here/in_turn.py" "$times" "abd check=$abd check $files" "abd check --workers 4=$abd check --workers 4 $files" \
    "plain_check --fast=$plain --fast $files" "plain_check --columns=$plain --columns $files" \
    "plain_check --columns --threads 4=$plain --columns --threads 4 $files"
  python3 "$here/in_turn.py" 3 "plain_check=$plain $files" "abd justify=$abd justify $work/$keys.history" \
    "justify, plain_check=$plain $work/$keys.history"
done
# Reading alone, without what it takes to free the history, with all processors and with one.
reads=$work/programs/crates/read_speed/out/read_speed
if [ -x "$reads" ]; then
  for keys in 100 1 100000; do
    echo "== reading, $keys keys"
    python3 "$here/in_turn.py" "${TIMES:-9}" "all processors=$reads $work/$keys.history" "one=taskset -c 0 $reads $work/$keys.history"
  done
fi
# Scripts; what the two programs write is compared too.
mkdir -p "$work/simulate"
cp -r "$here/plain_simulate/." "$work/simulate"
(cd "$work/simulate" && cargo build --release --offline --quiet)
for load in random pairs; do
  echo "== the script of $load"
  python3 "$here/big_script.py" --load $load > "$work/$load.script"
  for program in "$abd simulate" "$work/simulate/target/release/plain_simulate"; do
    name=${program##*/}
    # shellcheck disable=SC2086
    /usr/bin/time -f "$name: %e s, %U s of them computing, %M KiB" $program "$work/$load.script" > "$work/${name% *}.out" 2> "$work/said"
    tail -n 1 "$work/said"
  done
  cmp "$work/abd.out" "$work/plain_simulate.out"
done
# Steps of the world: 10,000,000 random ones.
steps=$work/programs/crates/step_speed/out/step_speed
[ -x "$steps" ] && /usr/bin/time -f "${steps##*/}: %e s, %M KiB" "$steps"
