#!/usr/bin/env bash
# Displays a pane of 10,000 items and paints it, 20 times, through the built program, and prints the processor time of one time: 100 ms
# at most. The pane shows 256 of the items; each run of the command draws all of them anew. The time of a program that does the same
# with one item is taken off.
source "$(dirname "$0")/program.sh"
runs=20
application() {
    cat <<TEXT
(define-application-frame rows (:size 80 256) (:slots (n integer 0)) (:panes (p 0 0 80 256 show)))
(define-display show () (dolist (x (range 1 $1)) (write-text "a row of some text") (newline)))
(define-command com-go () (setf (slot n) (+ (slot n) 1)))
TEXT
}
application 10000 >"$files/many.clim"
application 1 >"$files/one.clim"
{ yes $'type go\nreturn' || true; } | head -n $((2 * runs)) >"$files/gestures"
TIMEFORMAT='%U %S'
spent() {
    { time "$program" run "$files/$1.clim" <"$files/gestures" >"$files/$1.transcript"; } 2>&1
}
many=$(spent many)
one=$(spent one)
if [ "$(grep -c '^pane p kept 0 moved 0 drawn 10000 erased 10000$' "$files/many.transcript")" -ne "$runs" ]; then
    echo 'bench: the pane was not displayed' >&2
    exit 1
fi
awk -v runs="$runs" 'NR == 1 { many = $1 + $2 } NR == 2 { one = $1 + $2 } END {
    # the opening is one display more
    printf "10,000 items displayed and painted in %.1f ms (100 at most)\n", (many - one) * 1000 / (runs + 1)
}' <<<"$many
$one"
