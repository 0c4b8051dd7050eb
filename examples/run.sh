#!/usr/bin/env bash
# run.sh NAME: runs the example of this name, the application NAME.clim with the gestures NAME.gestures of crates/clim_cases/data, and ends
# with its status. It writes the transcript, which is NAME.transcript there: the examples are cases too. Where the application is refused,
# `explain.sh` says why. `program.sh` says which program runs.
set -euo pipefail
. "$(dirname "${BASH_SOURCE[0]}")/program.sh"
data=$(cd "$examples/../crates/clim_cases/data" && pwd)
application=$data/$1.clim
printed=$(mktemp)
trap 'rm -f "$printed"' EXIT
status=0
program run "$application" <"$data/$1.gestures" | tee "$printed" || status=${PIPESTATUS[0]}
if [ "$status" -eq 1 ]; then
    "$examples/explain.sh" "$application" "$(head -n 1 "$printed")" || true
fi
exit "$status"
