#!/usr/bin/env bash
# What it takes to settle 16 panes of which one changes, through the built program, which is built here where it is not yet. Each pane has a list of
# 300 lines, as one piece that depends on the pane's own slot. A command changes the slot of one pane, and another runs in an application
# that has that pane alone. It prints the processor instructions of one command where valgrind is there, and else the microseconds of user and
# system processor time. Each is the difference of a run of few commands and of one of more. It ends with 1 where 16 panes take more than 1.3
# times what the one takes alone.
source "$(dirname "$0")/program.sh"
few=2
more=12
if ! command -v valgrind >/dev/null; then
    more=202
fi
unit=instructions
command -v valgrind >/dev/null || unit=microseconds

# application NAME COUNT: an application with so many panes, side by side in rows of four
application() {
    {
        echo "(define-application-frame panes (:size 64 64)"
        echo "  (:slots"
        for ((k = 0; k < $2; k++)); do echo "    (s$k integer 0)"; done
        echo "  ) (:panes"
        for ((k = 0; k < $2; k++)); do echo "    (p$k $((16 * (k % 4))) $((16 * (k / 4))) 16 16 show$k)"; done
        echo "  ))"
        echo "(define-command com-turn () (setf (slot s0) (- 1 (slot s0))))"
        for ((k = 0; k < $2; k++)); do
            echo "(define-display show$k ()"
            echo "  (updating-output (:unique-id 'all :cache-value (list (slot s$k)))"
            echo "    (dolist (x (range 1 300)) (write-text (text (+ x (slot s$k)))) (newline))))"
        done
    } >"$files/$1.clim"
}
application all 16
application alone 1

# gestures NAME COUNT: so many commands
gestures() {
    { yes $'type turn\nreturn' || true; } | head -n $((2 * $2)) >"$files/$1"
}
gestures few "$few"
gestures more "$more"

# run NAME GESTURES: the program on these
run() {
    "$program" run "$files/$1.clim" <"$files/$2"
}

# spent NAME GESTURES: the instructions of such a run, or else its microseconds
spent() {
    if [ "$unit" = instructions ]; then
        valgrind --tool=callgrind --callgrind-out-file=/dev/null "$program" run "$files/$1.clim" <"$files/$2" 2>&1 >/dev/null |
            awk '/Collected/ { count += $NF } END {
                if (!count) { print "bench: valgrind counted no instructions" >"/dev/stderr"; exit 1 }
                printf "%.0f\n", count
            }'
    else
        local TIMEFORMAT='%U %S'
        { time run "$1" "$2" >/dev/null; } 2>&1 | awk '{ print ($1 + $2) * 1000000 }'
    fi
}

# each NAME: what one command takes
each() {
    awk -v times=$((more - few)) '{ printf "%.0f\n", ($2 - $1) / times }' <<<"$(spent "$1" few) $(spent "$1" more)"
}

# of the panes one is drawn anew, and each other one is kept
told=$(run all few | grep -c '^pane p[0-9]* kept 1 moved 0 drawn 0 erased 0$' || true)
if [ "$told" -ne $((15 * few)) ] || [ "$(run all few | grep -c '^pane p0 kept 0 moved 0 drawn 300 erased 300$')" -ne "$few" ]; then
    echo "bench: the panes were not displayed as they are meant" >&2
    exit 1
fi
awk -v all="$(each all)" -v alone="$(each alone)" -v unit="$unit" 'BEGIN {
    printf "16 panes, of which one changes: %.0f %s, %.2f times that pane alone (%.0f; 1.3 at most)\n", all, unit, all / alone, alone
    printf "  each pane that does not change: %.0f %s\n", (all - alone) / 15, unit
    exit all > 1.3 * alone
}'
