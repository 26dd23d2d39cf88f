#!/usr/bin/env bash
# Refuses allocations of the built programs, one a run, and compares what came out (refuse_growths.py says which allocations, and how it compares).
# Without words it goes over all of these:
#
#   scripts/refuse_growths.sh abd test_files test_protocol test_records store_example test_store refused_calls
#
# With `all` as the first word every allocation from that one on is refused, of abd, store_example and test_store.
# A program is built by `rt run` in its folder. One that isn't built is named, and the status is then 1. The tests `refused_calls`, the texts
# refused_calls/*.rt.txt, are built here, as a crate of a copy of the repository: no crate of crates.txt, so that the gate needn't prove them.
set -eu
here=$(cd "$(dirname "$0")" && pwd)
work=$(mktemp -d)
trap 'rm -rf "$work"' EXIT
cc -O1 -shared -fPIC -o "$work/refuse.so" "$here/refuse_growths.c"

# The tests of refused calls, over what earlier checks of the crates below them kept.
build_refused_calls() {
  mkdir "$work/top"
  cp -r "$here/../HANDLES" "$here/../crates.txt" "$here/../crates" "$work/top"
  mkdir -p "$work/top/crates/refused_calls/src"
  for text in "$here"/refused_calls/*.rt.txt; do
    cp "$text" "$work/top/crates/refused_calls/src/$(basename "$text" .txt)"
  done
  echo "refused_calls: tag quorum recorder replica client_phases network world_steps world_settle random_steps certificate_check" \
    "parallel_keys witness_order counted_devices file_format hall_journal node_threads" >> "$work/top/crates.txt"
  (cd "$work/top/crates/refused_calls" && rt test > "$work/built" || { cat "$work/built"; exit 1; })
}

case " $* " in
  *" refused_calls "* | "  ") build_refused_calls ;;
esac
REFUSED_CALLS="$work/top" python3 "$here/refuse_growths.py" "$work/refuse.so" "$here/.." "$@"
