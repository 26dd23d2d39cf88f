#!/usr/bin/env bash
# Builds the commit that the checksums in release/ name anew, in a clone, and compares the package with that in release/, byte for byte:
#
#   scripts/verify_release.sh
#
# It proves all by `rt ci`, which takes an hour from nothing, and minutes where this machine has proved that commit before. Another kit
# builds other bytes: it says so and ends with 1, as it does for any byte that differs.
set -euo pipefail
cd "$(dirname "$0")/.."
top=$PWD
sums=$(ls release/*.sums)
commit=$(sed -n 's/^commit //p' "$sums")
kit=$(sed -n 's/^kit //p' "$sums")
here=$(rt version)
if [ "$here" != "$kit" ]; then
  echo "verify_release: the package was made with $kit, and here is $here: another kit builds other bytes" >&2
  exit 1
fi
room=$(mktemp -d)
trap 'rm -rf "$room"' EXIT
git clone -q "$top" "$room/abd"
git -C "$room/abd" checkout -q "$commit"
(cd "$room/abd" && scripts/package.sh --no-looks "$room/made" > "$room/log" 2>&1) || { tail -20 "$room/log" >&2; exit 1; }
status=0
sed -nE 's/^[0-9a-f]{64}  //p' "$sums" | while read -r name; do
  cmp "release/$name" "$room/made/$name"
done || status=1
if [ "$status" -eq 0 ]; then
  echo "release: both files are what ${commit:0:7} makes, byte for byte"
fi
exit "$status"
