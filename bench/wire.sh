#!/usr/bin/env bash
# What the wire takes, through the built program, which is built here where it is not yet. It prints
#   how many processor instructions of a redraw there are for each cell, on a screen of 512 by 256 cells whose rows have one ink each,
#     with a wire and without one, where valgrind is there: the difference of runs of 12 and of 2 redraws by `force`, so what starts and ends
#     the program falls out. The frame has one pane, of one cell, so next to nothing is displayed and painted.
#   how many times the instructions of a run without a wire a run with one takes, for 10,000 commands that each send one cell; where valgrind is
#     not there, how many times its processor time.
# No bound is set for either.
source "$(dirname "$0")/program.sh"
redraws=10
commands=10000
cat >"$files/wide.clim" <<'TEXT'
(define-application-frame wide (:size 512 256) (:panes (p 0 0 1 1 show)))
(define-display show () (write-text "x"))
TEXT
cat >"$files/one.clim" <<'TEXT'
(define-application-frame one (:size 1 1) (:slots (n integer 0)) (:panes (p 0 0 1 1 show)))
(define-display show () (write-text (text (slot n))))
(define-command com-go () (setf (slot n) (mod (+ (slot n) 1) 10)))
TEXT
# gestures NAME COUNT LINES: so many times these lines
gestures() {
    { yes "$3" || true; } | head -n "$2" >"$files/$1"
}
gestures few 2 force
gestures more $((redraws + 2)) force
gestures go $((2 * commands)) $'type go\nreturn'

# run APPLICATION GESTURES [WORD ..]: the program on these, with further words
run() {
    local application=$1 gestures=$2
    shift 2
    "$program" run "$files/$application.clim" "$@" <"$files/$gestures"
}

# the instructions of such a run
instructions() {
    local application=$1 gestures=$2
    shift 2
    valgrind --tool=callgrind --callgrind-out-file=/dev/null \
        "$program" run "$files/$application.clim" "$@" <"$files/$gestures" 2>&1 >/dev/null |
        awk '/Collected/ { count += $NF } END {
            if (!count) { print "bench: valgrind counted no instructions" >"/dev/stderr"; exit 1 }
            printf "%.0f\n", count
        }'
}

# the user and system processor time of such a run, in seconds
spent() {
    local TIMEFORMAT='%U %S'
    { time run "$@" >/dev/null; } 2>&1 | awk '{ print $1 + $2 }'
}

# what is measured is what was meant: each redraw is a C and 256 rows of one run; each command is one S
run wide more --wire "$files/wide.wire" >/dev/null
run one go --wire "$files/one.wire" >"$files/with"
run one go >"$files/without"
if [ "$(grep -c '^C 512 256$' "$files/wide.wire")" -ne $((redraws + 3)) ] ||
    [ "$(grep -c '^S ' "$files/wide.wire")" -ne $((256 * (redraws + 3))) ]; then
    echo 'bench: the screen was not redrawn' >&2
    exit 1
fi
if [ "$(wc -l <"$files/one.wire")" -ne $((commands + 2)) ] || ! cmp -s "$files/with" "$files/without" ||
    [ "$(grep -c '^ok Go$' "$files/with")" -ne "$commands" ]; then
    echo 'bench: the commands did not send a cell each' >&2
    exit 1
fi

if command -v valgrind >/dev/null; then
    few=$(instructions wide few --wire "$files/wide.wire")
    more=$(instructions wide more --wire "$files/wide.wire")
    few_unseen=$(instructions wide few)
    more_unseen=$(instructions wide more)
    awk -v cells=$((redraws * 512 * 256)) '{
        printf "%.1f instructions a cell of a redraw with a wire, %.1f without one\n", ($2 - $1) / cells, ($4 - $3) / cells
    }' <<<"$few $more $few_unseen $more_unseen"
    sent=$(instructions one go --wire "$files/one.wire")
    unsent=$(instructions one go)
    awk -v commands="$commands" '{
        printf "%d commands that send a cell each: %.3f times the instructions of a run without a wire (%.0f more each)\n",
            commands, $1 / $2, ($1 - $2) / commands
    }' <<<"$sent $unsent"
fi
sent=$(spent one go --wire "$files/one.wire")
unsent=$(spent one go)
awk -v commands="$commands" '{
    printf "%d commands that send a cell each: %.2f s with a wire, %.2f s without one", commands, $1, $2
    if ($2 > 0) printf ", %.2f times as long", $1 / $2
    printf "\n"
}' <<<"$sent $unsent"
