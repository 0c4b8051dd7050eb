#!/usr/bin/env bash
# What updates at one level take, through the built program: the opening of a pane with 60,000 of them, and with 6,000. It prints the
# processor instructions an update where valgrind is there, and else the processor time, and ends with 1 where an update among 60,000 takes
# more than twice what one among 6,000 takes.
#   up, down: ids in their order, and from the last to the first.
#   numbers: no ids, so each has a running number.
#   texts: ids that are texts.
crate=clim_run
source "$(dirname "$0")/program.sh"

# application COUNT ID: a pane that shows so many updates with this id
application() {
    cat <<TEXT
(define-application-frame rows (:size 8 8) (:panes (p 0 0 8 8 show)))
(define-display show () (dolist (x (range 1 $1)) (updating-output ($2) (draw-point 0 0 "a"))))
TEXT
}

# spent COUNT ID: what the opening takes
spent() {
    application "$1" "$2" >"$files/updates.clim"
    : >"$files/none"
    if command -v valgrind >/dev/null; then
        valgrind --tool=callgrind --callgrind-out-file=/dev/null "$program" run "$files/updates.clim" <"$files/none" 2>&1 >"$files/out" | awk '/Collected/ { print $4 }'
    else
        local TIMEFORMAT='%U %S'
        { time "$program" run "$files/updates.clim" <"$files/none" >"$files/out"; } 2>&1 | awk '{ print int(($1 + $2) * 1000000) }'
    fi
}

status=0
# compare WHAT ID
compare() {
    awk -v what="$1" -v one="$(spent 1 "$2")" -v few="$(spent 6001 "$2")" -v many="$(spent 60001 "$2")" 'BEGIN {
        a = (few - one) / 6000; b = (many - one) / 60000
        printf "%s: %d an update among 6,000, %d among 60,000: %.2f times (2 at most)\n", what, a, b, b / a
        exit b > 2 * a
    }' || status=1
}

compare up ':unique-id x'
compare down ':unique-id (- 100000 x)'
compare numbers ''
compare texts ':unique-id (text x)'
exit "$status"
