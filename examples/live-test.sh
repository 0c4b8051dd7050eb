#!/usr/bin/env bash
# live-test.sh: runs the examples `todo` and `order` live in a window of tmux, of 80 columns and 24 rows, types and points at it, and compares the
# screen with the `frame` that clim_run says behind the same gestures. It is run by hand, where tmux is there and both programs are built. The
# variables CLIM_TERM and CLIM_RUN may name other programs.
set -euo pipefail
top=$(cd "$(dirname "${BASH_SOURCE[0]}")/.." && pwd)
clim_run=${CLIM_RUN:-$top/crates/clim_run/out/clim_run}
window=clim-live-$$
work=$(mktemp -d)
failed=0

# stop WHY: nothing can be compared.
stop() {
    echo "live-test.sh: $1" >&2
    exit 2
}

command -v tmux >/dev/null || stop 'there is no tmux'
[ -x "$clim_run" ] || stop "$clim_run is not built; to build it: cd crates/clim_run && rt run"

clean_up() {
    tmux -L "$window" kill-server 2>/dev/null || true
    rm -rf "$work"
}
trap clean_up EXIT

# ---- gestures: each is sent to the window as a terminal sends it, and kept as a line for clim_run

# send BYTES: sends bytes as they are.
send() {
    tmux -L "$window" send-keys -t live -l "$1"
}

typed() {
    send "$1"
    echo "type $1" >>"$work/gestures"
}

entered() {
    send $'\r'
    echo return >>"$work/gestures"
}

rubbed_out() {
    send $'\x7f'
    echo rubout >>"$work/gestures"
}

cleared() {
    send $'\x15'
    echo clear >>"$work/gestures"
}

forced() {
    send $'\x0c'
    echo force >>"$work/gestures"
}

stroke() {
    send $'\x1b'"$1"
    echo "stroke $1" >>"$work/gestures"
}

# pressed PANE LEFT TOP BUTTON X Y: a button goes down and up at a cell of a pane that begins at column LEFT of row TOP.
pressed() {
    local names=(select describe menu) place=$(($2 + $5 + 1))\;$(($3 + $6 + 1))
    send $'\x1b'"[<$4;${place}M"$'\x1b'"[<$4;${place}m"
    echo "point $1 ${names[$4]} $5 $6" >>"$work/gestures"
}

# ---- the window

# begin NAME: runs an example in a new window, and says there how the run ended.
begin() {
    name=$1
    : >"$work/gestures"
    height=$(sed -n 's/.*(:size [0-9]\{1,\} \([0-9]\{1,\}\)).*/\1/p' "$top/crates/clim_cases/data/$name.clim" | head -n 1)
    CLIM_TERM=${CLIM_TERM:-} tmux -L "$window" -f /dev/null new-session -d -s live -x 80 -y 24 \
        "stty -a >'$work/before'; '$top/examples/live.sh' '$name'; echo ended \$?; stty -a >'$work/after'; exec cat"
    tmux -L "$window" set-option -t live status off
    tmux -L "$window" resize-window -t live -x 80 -y 24
    await "$name: the frame is shown" shows '> '
    if ! shows '> '; then
        rows 24
        exit 1
    fi
}

# rows COUNT: the first rows of the window, without the spaces at their ends.
rows() {
    tmux -L "$window" capture-pane -t live -p | head -n "$1" | sed 's/ *$//'
}

# shows BEGINNING: whether the row below the frame begins so.
shows() {
    [[ "$(tmux -L "$window" capture-pane -t live -p | sed -n "$((height + 1))p") " == "$1"* ]]
}

# is_same: whether the frame is the one that clim_run says behind the gestures.
is_same() {
    rows "$height" >"$work/shown"
    cmp -s "$work/wanted" "$work/shown"
}

has_ended() {
    rows 24 | grep -qx "ended $1"
}

# await WHAT TEST..: waits until a test holds, for five seconds at most.
await() {
    local what=$1 turn
    shift
    for turn in $(seq 50); do
        if "$@"; then
            echo "ok $what"
            return
        fi
        sleep 0.1
    done
    echo "FAILED $what"
    failed=1
}

# compare WHAT: the frame behind the gestures so far.
compare() {
    { cat "$work/gestures"; echo frame; } | "$clim_run" run "$top/crates/clim_cases/data/$name.clim" |
        tail -n "$height" | sed 's/ *$//' >"$work/wanted"
    await "$name: $1" is_same
    if ! cmp -s "$work/wanted" "$work/shown"; then
        diff "$work/wanted" "$work/shown" || true
    fi
}

# end: the key for the end; the terminal is as it was.
end() {
    send $'\x04'
    await "$name: ends" has_ended 0
    if [ "$(tmux -L "$window" display-message -t live -p '#{alternate_on}#{mouse_any_flag}')" = 00 ]; then
        echo "ok $name: the screen and the pointer are given back"
    else
        echo "FAILED $name: the screen and the pointer are given back"
        failed=1
    fi
    await "$name: the terminal's modes are given back" cmp -s "$work/before" "$work/after"
    tmux -L "$window" kill-session -t live
}

# ---- the to-do list: pane `list` begins at the first cell

begin todo
compare 'at the opening'
typed 'Add "call the plumber" high'
entered
compare 'an item is added'
pressed list 0 0 0 0 2
pressed list 0 0 0 30 1
compare 'two items are done'
pressed list 0 0 2 4 0
forced
compare 'one is urgent'
stroke c
stroke a
typed tea
await "$name: the line is shown" shows '> Add tea'
entered
compare 'what was done is cleared away'
end

# ---- an order: the form begins at the first cell, the list at column 25

begin order
typed New
entered
compare 'a form is open'
pressed form 0 0 0 0 0
typed custon
rubbed_out
typed m
entered
pressed form 0 0 0 0 1
typed 300
entered
cleared
typed 150
entered
compare 'a form is filled in'
pressed form 0 0 0 0 2
typed 3
entered
pressed form 0 0 0 0 3
compare 'an order is taken'
pressed list 25 0 0 0 1
pressed list 25 0 1 0 1
compare 'and taken once more'
end

exit "$failed"
