#!/usr/bin/env bash
# What a `return` takes in an application of 4,000 commands, beside one of 4, through the built program. It prints the processor
# instructions where valgrind is there, and else the processor time, and ends with 1 where 4,000 commands take more than 2 times what 4 take.
#   run: a line that names a command.
#   unknown: a line that names none, of letters with which many names begin.
crate=clim_run
source "$(dirname "$0")/program.sh"

# application COUNT: so many commands, whose names begin alike
application() {
    cat <<'TEXT'
(define-application-frame names (:size 8 1) (:panes (p 0 0 8 1 show)))
(define-display show ())
TEXT
    for ((number = 1; number <= $1; number++)); do
        echo "(define-command com-make-$number ())"
    done
}

# returns COUNT LINE: a line that is typed and finished so many times
returns() {
    for ((time = 0; time < $1; time++)); do
        printf 'clear\ntype %s\nreturn\n' "$2"
    done
}

# spent COMMANDS RETURNS LINE
spent() {
    returns "$2" "$3" >"$files/gestures"
    if command -v valgrind >/dev/null; then
        valgrind --tool=callgrind --callgrind-out-file=/dev/null "$program" run "$files/$1.clim" <"$files/gestures" 2>&1 >"$files/out" |
            awk '/Collected/ { print $4 }'
    else
        local TIMEFORMAT='%U %S'
        { time "$program" run "$files/$1.clim" <"$files/gestures" >"$files/out"; } 2>&1 | awk '{ print int(($1 + $2) * 1000000) }'
    fi
}

# each COMMANDS LINE: what one more `return` takes
each() {
    echo $((($(spent "$1" 1001 "$2") - $(spent "$1" 1 "$2")) / 1000))
}

status=0
for count in 4 4000; do
    application "$count" >"$files/$count.clim"
done
for kind in 'run:Make 3' 'unknown:Make'; do
    many=$(each 4000 "${kind#*:}")
    few=$(each 4 "${kind#*:}")
    awk -v kind="${kind%%:*}" -v many="$many" -v few="$few" 'BEGIN {
        printf "%s: %d for 4,000 commands, %d for 4: %.2f times (2 at most)\n", kind, many, few, many / few
        exit many > 2 * few
    }' || status=1
done
exit "$status"
