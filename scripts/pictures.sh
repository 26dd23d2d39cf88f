#!/usr/bin/env bash
# Makes the histories and the pictures of examples/ anew, with the built program:
#   scripts/pictures.sh ABD           writes examples/NAME.history of each script, examples/pictures/NAME.html of each history, and
#                                     examples/pictures/NAME.messages.html of each script; and of each page its first picture, NAME.svg
#   scripts/pictures.sh ABD --check   says which of these files aren't what ABD makes
set -eu
abd=$(realpath "$1")
cd "$(dirname "$0")/../examples"
made=$(mktemp -d)
trap 'rm -r "$made"' EXIT
mkdir -p "$made/pictures"
for script in *.script; do
  "$abd" simulate "$script" > "$made/${script%.script}.history" 2> /dev/null
  "$abd" trace "$script" --draw > "$made/pictures/${script%.script}.messages.html"
done
for history in *.history; do
  [ -e "$made/$history" ] || cp "$history" "$made/$history"
done
for history in "$made"/*.history; do
  name=$(basename "$history" .history)
  # A page names the file as it was given.
  (cd "$made" && "$abd" draw "$name.history") > "$made/pictures/$name.html" || [ $? -eq 1 ]
done
"$abd" draw two_calls.history two_calls_refused.orders > "$made/pictures/two_calls_refused.html" || [ $? -eq 1 ]
for page in "$made"/pictures/*.html; do
  python3 ../scripts/picture_of.py "$page" > "${page%.html}.svg"
done
if [ "${2:-}" = --check ]; then
  diff -rq "$made" . | grep -v '^Only in \.' && exit 1
  exit 0
fi
mkdir -p pictures
cp -r "$made"/. .
