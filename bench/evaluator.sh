#!/usr/bin/env bash
# Runs a command of nested maps, filters and folds 100 times through the built program, and prints how many forms it enters in a second
# of user and system processor time. 15 million a second are aimed at. The program is built where it is not yet. Where valgrind is
# there, it also prints the processor instructions of a form, which do not hang on the machine's load: 170 are aimed at, at most.
#
# FORMS of a run were counted once, by a separate program that evaluates by the rules of docs/language.md and counts each form that it
# enters; by hand it is the same. The command: `setf`, the outer `fold` with its range of 3 and its 0 are 6. For each of its 500 numbers,
# `+` and `a` are 2; the two calls, the filter and the 200 are 4; the map and its range are 4, and each of its 200 products 3; the
# filter's test is 5 for each of them; the fold of the sum with `xs` and 0 is 3, and each of the 57 numbers that passed the test is 3.
# That makes 892,006. The display after each run, and once at the opening, is 3.
source "$(dirname "$0")/program.sh"
runs=100
forms=892009
cat >"$files/work.clim" <<'TEXT'
(define-application-frame work (:size 12 1) (:slots (n integer 0)) (:panes (p 0 0 12 1 show)))
(define-display show () (write-text (text (slot n))))
(define-function squares (n) (map x (range 1 n) (* x x)))
(define-function sum (xs) (fold x xs a 0 (+ a x)))
(define-command com-work ()
  (setf (slot n) (fold i (range 1 500) a 0 (+ a (sum (filter s (squares 200) (> (mod s 7) 3)))))))
TEXT
{ yes $'type work\nreturn' || true; } | head -n $((2 * runs)) >"$files/gestures"
TIMEFORMAT='%U %S'
spent=$({ time "$program" run "$files/work.clim" <"$files/gestures" >"$files/transcript"; } 2>&1)
if [ "$(grep -c '^ok Work$' "$files/transcript")" -ne "$runs" ]; then
    echo 'bench: the command did not run' >&2
    exit 1
fi
awk -v forms="$((3 + runs * forms))" '{
    seconds = $1 + $2
    printf "%d forms in %.2f s: %.1f million a second (aim 15)\n", forms, seconds, (seconds > 0 ? forms / seconds / 1000000 : 0)
}' <<<"$spent"

# the instructions of the program over so many runs of the command
instructions() {
    head -n $((2 * $1)) "$files/gestures" |
        valgrind --tool=callgrind --callgrind-out-file=/dev/null "$program" run "$files/work.clim" 2>&1 >/dev/null |
        awk '/Collected/ { print $NF }'
}
if command -v valgrind >/dev/null; then
    # what starts and ends the program falls out of the difference
    awk -v forms="$forms" 'NR == 1 { few = $1 } NR == 2 { more = $1 } END {
        printf "%.0f instructions a form (aim 170)\n", (more - few) / (2 * forms)
    }' <<<"$(instructions 1)
$(instructions 3)"
fi
