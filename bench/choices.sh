#!/usr/bin/env bash
# What a choice takes where no translator applies, through the built program that answers what is chosen at places, which is built here
# where it is not yet. A pane shows 1,000 presentations of numbers, and 200 translators are declared, with as many from-types. For each
# question it prints the processor instructions of one choice where valgrind is there, and its microseconds of user and system processor
# time. Each is the difference of a run that asks once and of one that asks many times, so what loads the application and evaluates the
# display falls out.
#   beside: the presentations stand side by side, and one of them is at the place.
#   above: all stand at the place. `other types`: no translator is for their type, but for `other gestures`, where one is with another
#     gesture; `no context`: one is for their type and gesture, and gives nothing that fits the context.
# It ends with 1 where a choice takes more than a millisecond.
crate=clim_choices
source "$(dirname "$0")/program.sh"

# application FORM TYPE GESTURE: a pane that shows FORM 1,000 times; the last translator is for TYPE and GESTURE
application() {
    awk -v form="$1" -v last="$2" -v gesture="$3" 'BEGIN {
        print "(define-application-frame f (:size 80 25) (:slots (c symbol \047a)) (:panes (p 0 0 80 25 show)))"
        for (i = 0; i < 199; i++) print "(define-record r" i " x)"
        print "(define-display show () (dolist (x (range 0 999)) (with-output-as-presentation (x integer) " form ")))"
        for (i = 0; i < 199; i++) print "(define-presentation-translator t" i " (r" i " string) (o) \"\")"
        print "(define-presentation-translator t199 (" last " string :gesture " gesture ") (o) \"\")"
    }'
}

# asked TIMES: the application and the question so many times
asked() {
    cat "$files/application"
    awk -v times="$1" 'BEGIN { for (i = 0; i < times; i++) print "? p select 10 2 c" }'
}

# instructions TIMES: of a run that asks so many times
instructions() {
    asked "$1" >"$files/asked"
    valgrind --tool=callgrind --callgrind-out-file=/dev/null "$program" <"$files/asked" 2>&1 >/dev/null |
        awk '/Collected/ { count += $NF } END {
            if (!count) { print "bench: valgrind counted no instructions" >"/dev/stderr"; exit 1 }
            printf "%.0f\n", count
        }'
}

# spent TIMES: the processor time of such a run, in seconds
spent() {
    local TIMEFORMAT='%U %S'
    asked "$1" >"$files/asked"
    { time "$program" <"$files/asked" >/dev/null; } 2>&1 | awk '{ print $1 + $2 }'
}

# choose NAME FORM TYPE GESTURE: prints what a choice takes, at most a millisecond
status=0
choose() {
    local answer
    application "$2" "$3" "$4" >"$files/application"
    answer=$(asked 1 | "$program")
    if [ "$answer" != nothing ]; then
        echo "bench: the answer to $1 is $answer, not nothing" >&2
        exit 1
    fi
    printf '%-24s' "$1"
    if command -v valgrind >/dev/null; then
        awk '{ printf " %11.0f instructions", ($2 - $1) / 10 }' <<<"$(instructions 1) $(instructions 11)"
    fi
    awk '{
        took = ($2 - $1) / 200 * 1000000
        printf " %11.2f us\n", took
        exit took > 1000
    }' <<<"$(spent 1) $(spent 201)" || status=1
}

beside='(draw-point (* 2 (mod x 40)) (div x 40) "x")'
above='(draw-point 10 2 "x")'
choose 'beside' "$beside" integer select
choose 'above, other types' "$above" symbol select
choose 'above, other gestures' "$above" integer describe
choose 'above, no context' "$above" integer select
exit "$status"
