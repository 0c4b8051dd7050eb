#!/usr/bin/env bash
# live.sh NAME [--budget N]: runs the example of this name in this terminal up to Ctrl-D, and ends with the status of the run. Whatever happens,
# the terminal is given back as it was found. The program is the one that the variable CLIM_TERM names, else the proved one.
set -euo pipefail

# stop WHY: says why nothing is run.
stop() {
    echo "live.sh: $1" >&2
    exit 2
}

[ $# -ge 1 ] || stop 'usage: live.sh NAME [--budget N]'
name=$1
shift
top=$(cd "$(dirname "${BASH_SOURCE[0]}")/.." && pwd)
application=$top/crates/clim_cases/data/$name.clim
program=${CLIM_TERM:-$top/crates/clim_term/out/clim_term}
[ -f "$application" ] || stop "there is no example $name: $application"
[ -x "$program" ] || stop "$program is not built; to build it: cd crates/clim_term && rt run -- none \
(an hour or more of processor time the first time)"
[ -t 0 ] && [ -t 1 ] || stop 'standard input and standard output have to be a terminal'

# Six rows stand below the screen of the frame, each of up to 78 columns and a free one.
size=$(sed -n 's/.*(:size \([0-9]\{1,\}\) \([0-9]\{1,\}\)).*/\1 \2/p' "$application" | head -n 1)
read -r width height <<<"${size:-1 1}"
read -r rows columns < <(stty size)
needed_columns=$((width > 79 ? width : 79))
needed_rows=$((height + 6))
if [ "$columns" -lt "$needed_columns" ] || [ "$rows" -lt "$needed_rows" ]; then
    stop "$name needs a terminal of $needed_columns columns and $needed_rows rows, and this one has $columns and $rows: make it larger"
fi

saved=$(stty -g)
running=

# Gives the terminal back: a program that did not end by itself could not do so.
give_back() {
    if [ -n "$running" ]; then
        kill "$running" 2>/dev/null || true
        wait "$running" 2>/dev/null || true
        printf '\033[0m\033[?1006l\033[?1000l\033[?1049l'
    fi
    stty "$saved"
}
trap give_back EXIT
trap 'exit 129' HUP
trap 'exit 130' INT
trap 'exit 143' TERM

# Output is processed, so that a line of a refusal ends as elsewhere. The program is waited for, so that a signal is not.
stty raw -echo opost
status=0
"$program" "$application" "$@" <&0 &
running=$!
wait "$running" || status=$?
if [ "$status" -le 128 ]; then
    running=
fi
exit "$status"
