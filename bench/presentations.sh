#!/usr/bin/env bash
# What 10,000 presentations take, beside 10,000 texts, through the built programs. It prints the processor instructions where valgrind is
# there, and else the processor time, and ends with 1 where presentations take more than 5 times what texts take.
#   displayed: the opening of a pane that shows them, and one command that draws all of them anew.
#   printed: the history of the pane, once more.
#   touched: the presentation that began last, and the one that began first, where all are at one place, beside one display of the texts.
# The same with one presentation or text is taken off.
crate=clim_touches
source "$(dirname "$0")/program.sh"
touches=$program
rmdir "$files"
crate=clim_run
source "$(dirname "$0")/program.sh"

# application COUNT FORM: a pane that shows FORM so many times
application() {
    cat <<TEXT
(define-application-frame rows (:size 80 256) (:slots (n integer 0)) (:panes (p 0 0 80 256 show)))
(define-display show () (dolist (x (range 1 $1)) $2))
(define-command com-go () (setf (slot n) (+ (slot n) 1)))
TEXT
}

# spent FILE WORD ..: what a run of the words on the file as its standard input takes
spent() {
    local input=$1
    shift
    if command -v valgrind >/dev/null; then
        valgrind --tool=callgrind --callgrind-out-file=/dev/null "$@" <"$input" 2>&1 >"$files/out" | awk '/Collected/ { print $4 }'
    else
        local TIMEFORMAT='%U %S'
        { time "$@" <"$input" >"$files/out"; } 2>&1 | awk '{ print int(($1 + $2) * 1000000) }'
    fi
}

# more NAME GESTURES: what 10,000 of a kind take more than one
more() {
    printf '%s\n' "$2" >"$files/gestures"
    local many one
    many=$(spent "$files/gestures" "$program" run "$files/$1-10000.clim")
    one=$(spent "$files/gestures" "$program" run "$files/$1-1.clim")
    echo $((many - one))
}

# asked COUNT K: what so many questions for the presentation behind K others take more than one
asked() {
    local many one
    { cat "$files/places.clim" && echo "? times $1 p 1 0 $2"; } >"$files/many"
    { cat "$files/places.clim" && echo "? p 1 0 $2"; } >"$files/one"
    many=$(spent "$files/many" "$touches")
    one=$(spent "$files/one" "$touches")
    echo $(((many - one) / ($1 - 1)))
}

# compare WHAT PRESENTATIONS TEXTS
status=0
compare() {
    awk -v what="$1" -v presentations="$2" -v texts="$3" 'BEGIN {
        printf "%s: %d for presentations, %d for texts: %.2f times (5 at most)\n", what, presentations, texts, presentations / texts
        exit presentations > 5 * texts
    }' || status=1
}

for count in 10000 1; do
    application "$count" '(write-text "12345") (newline)' >"$files/texts-$count.clim"
    application "$count" '(present 12345 integer) (newline)' >"$files/presentations-$count.clim"
done
application 10000 '(with-output-as-presentation (x integer) (draw-hline 0 0 5))' >"$files/places.clim"
drawn=$'type go\nreturn'
texts=$(more texts "$drawn")
presentations=$(more presentations "$drawn")
compare 'displayed twice' "$presentations" "$texts"
printed=$(($(more presentations "$drawn"$'\nhistory p') - presentations))
compare 'printed' "$printed" "$(($(more texts "$drawn"$'\nhistory p') - texts))"
compare 'touched, the last' "$(asked 101 0)" "$((texts / 2))"
compare 'touched, the first' "$(asked 101 9999)" "$((texts / 2))"
exit "$status"
