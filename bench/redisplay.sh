#!/usr/bin/env bash
# What it takes to display a pane again of which much is kept, through the built program, which is built here where it is not yet. A command
# turns the slot n from 0 to 1 and back, and each time the pane is displayed. It prints the processor instructions of one command where
# valgrind is there, and else the microseconds of user and system processor time. Each is the difference of a run of few commands and of one of
# more, so what loads the application and displays it first falls out. Beside it stands how many times that is of all drawn anew, which
# `force` does.
#   one of 1,000: 1,000 pieces of one item, of which one changes. It ends with 1 where that takes more than 1.3 times the same pieces with
#     empty bodies: then there are ids and cache paths alone.
#   kept, moved: 100 pieces of 1 item and of 300 items, of which each is kept where it stands, or moved down and up again.
#   before 1,000: a piece comes before 1,000 others, which are moved, and goes again.
#   30 deep: 30 pieces, each in the one before it, of which the innermost changes; in each of them stands one more, which is kept.
#   reversed: 1,000 pieces in one order and in the other.
source "$(dirname "$0")/program.sh"
few=2
more=12
if ! command -v valgrind >/dev/null; then
    more=202
fi
unit=instructions
command -v valgrind >/dev/null || unit=microseconds

# application NAME BODY: an application whose display `show` has this body
application() {
    cat >"$files/$1.clim" <<TEXT
(define-application-frame pieces (:size 8 8)
  (:slots (n integer 0) (up t (range 1 1000)) (down t (fold x (range 1 1000) xs (list) (cons x xs))) (more t (range 0 1000)))
  (:panes (p 0 0 8 8 show)))
(define-command com-turn () (setf (slot n) (- 1 (slot n))))
(define-display piece (k) (updating-output (:unique-id k :cache-value (list k)) (write-text (text k)) (newline)))
(define-display one (k v) (updating-output (:unique-id k :cache-value (list k v)) (write-text (text (+ k v))) (newline)))
(define-display empty (k v) (updating-output (:unique-id k :cache-value (list k v))))
(define-display many (k)
  (updating-output (:unique-id k :cache-value (list k)) (dolist (x (range 1 300)) (write-text "a")) (newline)))
(define-display tower (k v)
  (updating-output (:unique-id k :cache-value (list k v))
    (if (= k 1) (write-text (text v)) (tower (- k 1) v))
    (updating-output (:unique-id 'beside :cache-value (list k)) (write-text (text k)) (newline))))
(define-display show () $2)
TEXT
}

# gestures NAME COUNT LINES: so many times these lines
gestures() {
    { yes "$3" || true; } | head -n "$2" >"$files/$1"
}
gestures turn-few $((2 * few)) $'type turn\nreturn'
gestures turn-more $((2 * more)) $'type turn\nreturn'
gestures force-few "$few" force
gestures force-more "$more" force

# run NAME GESTURES: the program on these
run() {
    "$program" run "$files/$1.clim" <"$files/$2"
}

# spent NAME GESTURES: the instructions of such a run, or else its microseconds
spent() {
    if [ "$unit" = instructions ]; then
        valgrind --tool=callgrind --callgrind-out-file=/dev/null "$program" run "$files/$1.clim" <"$files/$2" 2>&1 >/dev/null |
            awk '/Collected/ { count += $NF } END {
                if (!count) { print "bench: valgrind counted no instructions" >"/dev/stderr"; exit 1 }
                printf "%.0f\n", count
            }'
    else
        local TIMEFORMAT='%U %S'
        { time run "$1" "$2" >/dev/null; } 2>&1 | awk '{ print ($1 + $2) * 1000000 }'
    fi
}

# each NAME GESTURE: what one such gesture takes
each() {
    awk -v times=$((more - few)) '{ printf "%.0f\n", ($2 - $1) / times }' <<<"$(spent "$1" "$2-few") $(spent "$1" "$2-more")"
}

# reports NAME THERE BACK: what is measured is what was meant, when n is 1 and when it is 0 again
reports() {
    if [ "$(run "$1" turn-few | grep '^pane')" != "pane p $2"$'\n'"pane p $3" ]; then
        echo "bench: $1 was not displayed as it is meant: $(run "$1" turn-few | grep '^pane' | tr '\n' ' ')" >&2
        exit 1
    fi
}

# measure WHAT NAME BODY THERE BACK PIECES: prints what a command takes, and for each of so many pieces
measure() {
    application "$2" "$3"
    reports "$2" "$4" "$5"
    awk -v what="$1" -v unit="$unit" -v turn="$(each "$2" turn)" -v force="$(each "$2" force)" -v pieces="$6" 'BEGIN {
        printf "%s: %.0f %s, %.0f a piece; %.3f times all anew (%.0f)\n", what, turn, unit, turn / pieces, turn / force, force
    }'
}

around='(dolist (k (range 1 499)) (BODY k 0)) (BODY 500 (slot n)) (dolist (k (range 501 1000)) (BODY k 0))'
measure 'one of 1,000' one "${around//BODY/one}" \
    'kept 999 moved 0 drawn 1 erased 1' 'kept 999 moved 0 drawn 1 erased 1' 1000
application empty "${around//BODY/empty}"
reports empty 'kept 999 moved 0 drawn 0 erased 0' 'kept 999 moved 0 drawn 0 erased 0'
status=0
awk -v one="$(each one turn)" -v alone="$(each empty turn)" 'BEGIN {
    printf "  %.2f times ids and cache paths alone (1.3 at most)\n", one / alone
    exit one > 1.3 * alone
}' || status=1

measure 'kept, of 1 item' kept '(dolist (k (range 1 100)) (piece k)) (write-text (text (slot n)))' \
    'kept 100 moved 0 drawn 1 erased 1' 'kept 100 moved 0 drawn 1 erased 1' 100
measure 'kept, of 300 items' kept-many '(dolist (k (range 1 100)) (many k)) (write-text (text (slot n)))' \
    'kept 100 moved 0 drawn 1 erased 1' 'kept 100 moved 0 drawn 1 erased 1' 100
measure 'moved, of 1 item' moved '(when (= (slot n) 1) (newline)) (dolist (k (range 1 100)) (piece k))' \
    'kept 0 moved 100 drawn 0 erased 0' 'kept 0 moved 100 drawn 0 erased 0' 100
measure 'moved, of 300 items' moved-many '(when (= (slot n) 1) (newline)) (dolist (k (range 1 100)) (many k))' \
    'kept 0 moved 100 drawn 0 erased 0' 'kept 0 moved 100 drawn 0 erased 0' 100
measure 'before 1,000' before '(dolist (k (if (= (slot n) 0) (slot up) (slot more))) (piece k))' \
    'kept 0 moved 1000 drawn 1 erased 0' 'kept 0 moved 1000 drawn 0 erased 1' 1000
measure '30 deep' tower '(tower 30 (slot n))' \
    'kept 30 moved 0 drawn 1 erased 1' 'kept 30 moved 0 drawn 1 erased 1' 30
measure 'reversed' reversed '(dolist (k (if (= (slot n) 0) (slot up) (slot down))) (piece k))' \
    'kept 0 moved 1000 drawn 0 erased 0' 'kept 0 moved 1000 drawn 0 erased 0' 1000
exit "$status"
