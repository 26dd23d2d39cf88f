#!/usr/bin/env bash
# Compares the code of documents with the files that it is of (snippets.py says how it is marked):
#   scripts/snippets.sh              under a second
#   scripts/snippets.sh --compile    and compiles and runs the program of docs/LIBRARY.md by `rt try`, as a crate of a copy of the repository,
#                                    over what checks of the other crates kept: a minute or two
set -eu
cd "$(dirname "$0")/.."
python3 scripts/snippets.py
if [ "${1:-}" != --compile ]; then
  exit 0
fi
room=$(mktemp -d)
trap 'rm -rf "$room"' EXIT
line=$(python3 scripts/snippets.py --line)
name=${line%%:*}
cp -r HANDLES crates.txt crates "$room"
echo "$line" >> "$room/crates.txt"
mkdir -p "$room/crates/$name/src"
python3 scripts/snippets.py --program > "$room/crates/$name/src/main.rt"
(cd "$room/crates/$name" && rt try) > "$room/said" 2>&1 || true
wanted=$(sed -n 's/.*`rt try` in the program.s folder prints `\(.*\)`\..*/\1/p' docs/LIBRARY.md)
if ! grep -qxF "$wanted" "$room/said"; then
  echo "snippets: the program of docs/LIBRARY.md should print: $wanted" >&2
  cat "$room/said" >&2
  exit 1
fi
