#!/usr/bin/env bash
# guide.sh: says which forms of docs/guide.md stand in none of its texts, crates/clim_cases/data/guide-*.clim and examples.cases there, whose cases
# say what they come to. It ends with 1 where there is one.
set -euo pipefail
cd "$(dirname "${BASH_SOURCE[0]}")/.."
texts=$(cat crates/clim_cases/data/guide-*.clim crates/clim_cases/data/examples.cases)
status=0
# What stands between empty lines in a block of the language is looked for as a whole.
while IFS= read -r -d '' part; do
    if [[ $texts != *"$part"* ]]; then
        printf 'guide: in no text:\n%s\n' "$part" >&2
        status=1
    fi
done < <(awk '/^```/ { if (part != "") printf "%s%c", part, 0; part = ""; inside = $0 == "```lisp"; next }
    inside && $0 == "" { if (part != "") printf "%s%c", part, 0; part = ""; next }
    inside { part = part == "" ? $0 : part "\n" $0 }' docs/guide.md)
exit "$status"
