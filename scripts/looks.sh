#!/usr/bin/env bash
# Runs what people look at, with the built program, as .ci/run does after the proofs; of what passes nothing is said:
#   scripts/looks.sh ABD [--without-release]
# A check that can't be run fails. It takes a minute.
set -u
cd "$(dirname "$0")/.."
abd=$1
if [ ! -x "$abd" ]; then
  echo "looks: there is no program $abd: (cd crates/abd && rt run -- --version) builds it" >&2
  exit 1
fi
checks=(
  "python3 scripts/words.py $abd"
  "python3 scripts/command_rows.py $abd"
  "python3 scripts/draw_rows.py $abd"
  "python3 scripts/verbs.py $abd"
  "python3 scripts/monitor_pipes.py $abd"
  "python3 scripts/monitor_prefixes.py $abd 200"
  "python3 scripts/split_pieces.py $abd"
  "python3 scripts/broken_bytes.py $abd"
  "python3 scripts/pages.py $abd 20"
  "scripts/pictures.sh $abd --check"
  "scripts/recorders.sh $abd python"
  "python3 scripts/using.py $abd --without-servers"
  "scripts/snippets.sh"
  "scripts/edits.sh --applied"
  "python3 scripts/layers.py --check"
  "python3 scripts/definitions.py --check"
)
failed=0
for check in "${checks[@]}"; do
  if ! said=$($check 2>&1); then
    printf '%s: failed\n%s\n' "$check" "$said"
    failed=1
  fi
done
if [ "${2:-}" != --without-release ]; then
  python3 scripts/compare_release.py "$abd" || failed=1
fi
exit "$failed"
