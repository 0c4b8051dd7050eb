#!/usr/bin/env bash
# cases.sh [FILE ..]: runs all cases, or those of these files of crates/clim_cases/data alone, and prints what their program printed. That
# of all cases is compared with crates/clim_cases/stdout. It ends with the program's status, or with 1 where the program ended well and
# printed something else. The proved program runs where it is built, and else `rt try`, which proves nothing.
set -euo pipefail
cd "$(dirname "${BASH_SOURCE[0]}")/../crates/clim_cases"
words=("$@")
if [ $# -eq 0 ]; then
    mapfile -t words <args
fi
printed=$(mktemp)
trap 'rm -f "$printed"' EXIT
status=0
if [ -x out/clim_cases ]; then
    echo 'cases: run by the proved program, crates/clim_cases/out/clim_cases' >&2
    (cd data && ../out/clim_cases "${words[@]}") >"$printed" || status=$?
else
    echo 'cases: run by rt try, which proves nothing; all cases take some minutes, one file mostly one' >&2
    files=()
    for file in data/*; do
        files+=(--data "${file#data/}=$file")
    done
    rt try --seconds 1800 "${files[@]}" -- "${words[@]}" >"$printed" || status=$?
fi
cat "$printed"
if [ $# -eq 0 ] && [ "$status" -eq 0 ] && ! diff stdout "$printed" >&2; then
    echo 'cases: crates/clim_cases/stdout says otherwise (< above): put the new counts there' >&2
    status=1
fi
exit "$status"
