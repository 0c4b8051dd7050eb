#!/usr/bin/env bash
# What it takes to paint and send what is touched of a pane, through the built program, which is built here where it is not yet. A command turns
# the slot n from 0 to 1 and back, with a wire. It prints the processor instructions of one command where valgrind is there, and else the
# microseconds of user and system processor time. Each is the difference of a run of few commands and of one of more, so what loads the
# application and displays it first falls out. The wire shows that no more than the touched cells are sent.
#   one of 1,000: 1,000 pieces of one item, of which one changes. It sends one operation. Beside it stands how many times that is of `force`, which draws
#     all anew, and paints and sends all.
#   131,072 items: a pane of 512 by 256 items of one cell, without updates, of which one moves to the next cell. It sends one operation.
#   all touched: the same, and all of them change.
source "$(dirname "$0")/program.sh"
few=2
more=6
unit=instructions
command -v valgrind >/dev/null || unit=microseconds

cat >"$files/pieces.clim" <<'TEXT'
(define-application-frame pieces (:size 8 256) (:slots (n integer 0)) (:panes (p 0 0 8 256 show)))
(define-command com-turn () (setf (slot n) (- 1 (slot n))))
(define-display one (k v) (updating-output (:unique-id k :cache-value (list k v)) (write-text (text (+ k v))) (newline)))
(define-display show () (dolist (k (range 1 99)) (one k 0)) (one 100 (slot n)) (dolist (k (range 101 1000)) (one k 0)))
TEXT
# dots NAME GLYPH: a pane full of items of one cell, the last of which stands in column n of row 100
dots() {
    cat >"$files/$1.clim" <<TEXT
(define-application-frame dots (:size 512 256) (:slots (n integer 0)) (:panes (p 0 0 512 256 show)))
(define-command com-turn () (setf (slot n) (- 1 (slot n))))
(define-display show ()
  (let ((g $2)) (dolist (y (range 0 255)) (dolist (x (range 0 511)) (draw-point x y g))))
  (draw-point (slot n) 100 "x"))
TEXT
}
dots dots '"."'
dots all '(if (= (slot n) 0) "." ":")'

# gestures NAME COUNT LINES: so many times these lines
gestures() {
    { yes "$3" || true; } | head -n "$2" >"$files/$1"
}
gestures turn-few $((2 * few)) $'type turn\nreturn'
gestures turn-more $((2 * more)) $'type turn\nreturn'
gestures force-few "$few" force
gestures force-more "$more" force

# run NAME GESTURES: the program on these, with a wire
run() {
    "$program" run "$files/$1.clim" --budget 100000000 --wire "$files/wire" <"$files/$2"
}

# counted NAME GESTURES: the instructions of such a run
counted() {
    valgrind --tool=callgrind --callgrind-out-file=/dev/null "$program" run "$files/$1.clim" --budget 100000000 \
        --wire "$files/wire" <"$files/$2" 2>&1 >/dev/null |
        awk '/Collected/ { count += $NF } END {
            if (!count) { print "bench: valgrind counted no instructions" >"/dev/stderr"; exit 1 }
            printf "%.0f\n", count
        }'
}

# spent NAME GESTURES: the instructions of such a run, or else its microseconds
spent() {
    if [ "$unit" = instructions ]; then
        counted "$@"
    else
        local TIMEFORMAT='%U %S'
        { time run "$1" "$2" >/dev/null; } 2>&1 | awk '{ print ($1 + $2) * 1000000 }'
    fi
}

# each NAME GESTURE: what one such gesture takes
each() {
    awk -v times=$((more - few)) '{ printf "%.0f\n", ($2 - $1) / times }' <<<"$(spent "$1" "$2-few") $(spent "$1" "$2-more")"
}

# sends NAME COUNT FIRST: each command of the run sends so many operations, the first command's first being this
sends() {
    run "$1" turn-few >/dev/null
    local rows
    rows=$(awk 'NR == 1 { print $3 }' "$files/wire")
    if [ "$(wc -l <"$files/wire")" -lt $((1 + rows + few * $2)) ] || [ "$(tail -n $((few * $2)) "$files/wire" | head -n 1)" != "$3" ]; then
        echo "bench: $1 did not send what was meant: $(tail -n $((few * $2)) "$files/wire" | head -n 1)" >&2
        exit 1
    fi
}

sends pieces 1 'S 0 99 0 101'
awk -v turn="$(each pieces turn)" -v force="$(each pieces force)" -v unit="$unit" 'BEGIN {
    printf "one of 1,000: %.0f %s, %.2f times force (%.0f)\n", turn, unit, turn / force, force
}'
sends dots 1 'S 0 100 0 .x'
awk -v turn="$(each dots turn)" -v force="$(each dots force)" -v unit="$unit" 'BEGIN {
    printf "131,072 items, of which one changes: %.0f %s, %.2f times force (%.0f)\n", turn, unit, turn / force, force
}'
sends all 256 "S 0 0 0 $(printf ':%.0s' {1..512})"
awk -v turn="$(each all turn)" -v force="$(each all force)" -v unit="$unit" 'BEGIN {
    printf "131,072 items, all of which change: %.0f %s, %.2f times force (%.0f)\n", turn, unit, turn / force, force
}'
