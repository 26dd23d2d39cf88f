#!/usr/bin/env bash
# Tries wrong bodies that the prover has to refuse, over what earlier checks of their crates kept (`rt check` in a crate first):
#   scripts/edits.sh                      every edit of every crate
#   scripts/edits.sh NAME.. NAME/EDIT..   those of these crates, or these edits
#   scripts/edits.sh --since COMMIT       those whose function, or whose own file, changed since a commit
#   --gate, --inner                       of these only those in must-fail (`rt ci` tries them too), or only those in inner-edits
#   --in-gate                             those in inner-edits that the gate tries too (their line `gate: yes`), as .ci/run does: from nothing, of
#                                         each crate the edited functions alone, over the libraries that `rt ci` built
#   --alone                               each in a check of its own, where else one check tries edits of several functions
#   --applied                             none is tried: of each is seen that its old text stands in its file once, as the gate does
set -eu
cd "$(dirname "$0")/.."
exec python3 scripts/edits.py "$@"
