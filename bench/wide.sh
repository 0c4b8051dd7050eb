#!/usr/bin/env bash
# What it takes to show a pane of 512 by 256 cells full of items of one byte, of which one changes, through the built program, which is built here where
# it is not yet. Each row is a piece, and 16 rows are a piece. A command changes an item of one row; another runs in an application whose pane has that
# row alone. It prints the processor instructions of one command where valgrind is there, and else the microseconds of user and system processor
# time. Each is the difference of a run of few commands and of one of more. It ends with 1 where the wide pane takes more than 1.3 times what the row
# takes alone.
source "$(dirname "$0")/program.sh"
few=1
more=5
unit=instructions
command -v valgrind >/dev/null || unit=microseconds

# application NAME ROWS BODY: an application whose pane has so many rows, and whose display `show` has this body
application() {
    cat >"$files/$1.clim" <<TEXT
(define-application-frame wide (:size 512 $2) (:slots (n integer 0)) (:panes (p 0 0 512 $2 show)))
(define-command com-turn () (setf (slot n) (- 1 (slot n))))
(define-display row (y v)
  (updating-output (:unique-id y :cache-value (list y v))
    (dolist (x (range 0 511)) (draw-point x y (if (and (= x 100) (= v 1)) "x" ".")))))
(define-display band (k v)
  (updating-output (:unique-id k :cache-value (list k v))
    (dolist (y (range (* 16 k) (+ (* 16 k) 15))) (row y (if (= y 100) v 0)))))
(define-display show () $3)
TEXT
}
application all 256 '(dolist (k (range 0 15)) (band k (if (= k 6) (slot n) 0)))'
application alone 101 '(row 100 (slot n))'

# gestures NAME COUNT: so many commands
gestures() {
    { yes $'type turn\nreturn' || true; } | head -n $((2 * $2)) >"$files/$1"
}
gestures few "$few"
gestures more "$more"

# run NAME GESTURES: the program on these, with a wire
run() {
    "$program" run "$files/$1.clim" --budget 100000000 --wire "$files/wire" <"$files/$2"
}

# spent NAME GESTURES: the instructions of such a run, or else its microseconds
spent() {
    if [ "$unit" = instructions ]; then
        valgrind --tool=callgrind --callgrind-out-file=/dev/null "$program" run "$files/$1.clim" --budget 100000000 \
            --wire "$files/wire" <"$files/$2" 2>&1 >/dev/null |
            awk '/Collected/ { count += $NF } END {
                if (!count) { print "bench: valgrind counted no instructions" >"/dev/stderr"; exit 1 }
                printf "%.0f\n", count
            }'
    else
        local TIMEFORMAT='%U %S'
        { time run "$1" "$2" >/dev/null; } 2>&1 | awk '{ print ($1 + $2) * 1000000 }'
    fi
}

# each NAME: what one command takes
each() {
    awk -v times=$((more - few)) '{ printf "%.0f\n", ($2 - $1) / times }' <<<"$(spent "$1" few) $(spent "$1" more)"
}

# 15 bands are kept, and in the other one 15 rows; one cell is sent
if [ "$(run all few | grep '^pane')" != 'pane p kept 30 moved 0 drawn 512 erased 512' ] || [ "$(tail -n 1 "$files/wire")" != 'S 100 100 0 x' ]; then
    echo "bench: the pane was not displayed as it is meant: $(run all few | grep '^pane'), $(tail -n 1 "$files/wire")" >&2
    exit 1
fi
awk -v all="$(each all)" -v alone="$(each alone)" -v unit="$unit" 'BEGIN {
    printf "131,072 items in rows, of which one changes: %.0f %s, %.2f times its row alone (%.0f; 1.3 at most)\n", all, unit, all / alone, alone
    exit all > 1.3 * alone
}'
