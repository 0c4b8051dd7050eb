#!/usr/bin/env bash
# Six application texts of 1,048,576 bytes, the most that is read, through the built program: user and system processor time
# of each run, beside its bound. The program is built where it is not yet.
#   lists: comments and long lists of words, numbers and texts, which declare nothing and so are refused; 200 ms
#   brackets: empty lists, so that each byte is a token; refused as well; 200 ms
#   counter: the counter, made as long by a comment; it opens; 200 ms
#   functions: 4,096 declarations, the most that a text may have, of which 4,094 are functions that all call the one before; the
#     opening value of a slot names the last, so that all are looked through for slots; it opens; 500 ms
#   bindings: a `let` of 40,000 bindings, each of which names the one before; it opens; 200 ms
#   frames: 300 frames, whose opening values all reach the same 2,000 functions; it is refused, since one frame is the most; 500 ms
source "$(dirname "$0")/program.sh"
length=1048576

# pad FILE: a comment at its end makes it of the full length
pad() {
    local missing=$((length - $(stat -c %s "$1") - 1))
    { printf ';'; head -c "$missing" /dev/zero | tr '\0' '.'; } >>"$1"
}

# measure NAME STATUS BOUND: runs the text of this name, which ends with this status, in so many ms
measure() {
    local spent status=0
    local TIMEFORMAT='%U %S'
    spent=$({ time "$program" run "$files/$1" </dev/null >"$files/out" 2>/dev/null; } 2>&1) || status=$?
    if [ "$status" -ne "$2" ]; then
        echo "bench: $1 ended with status $status, not $2" >&2
        exit 1
    fi
    awk -v name="$1" -v bound="$3" '{ printf "%-9s %4d ms (bound %d ms)\n", name, ($1 + $2) * 1000 + 0.5, bound }' <<<"$spent"
}

# whole blocks, as many as there is room for
awk -v room="$((length - 1000))" 'BEGIN {
    for (i = 0; ; i++) {
        block = "; block " i ": words, \"numbers\" and (texts\n(list-" i
        for (j = 0; j < 20; j++) block = block " word-" j " -" i * 97 + j " \"a text, " j "\""
        block = block ")\n"
        if ((used += length(block)) > room) exit
        printf "%s", block
    }
}' >"$files/lists"
pad "$files/lists"
awk -v pairs="$(((length - 1000) / 2))" 'BEGIN { while (pairs-- > 0) printf "()" }' >"$files/brackets"
pad "$files/brackets"
cp crates/clim_cases/data/counter.clim "$files/counter"
pad "$files/counter"

awk 'BEGIN {
    print "(define-application-frame many (:size 12 1) (:slots (n integer (if true 7 (count-4094 1 2)))) (:panes (p 0 0 12 1 show)))"
    print "(define-display show () (write-text (text (slot n))))"
    print "(define-function count-1 (one two) (+ one two))"
    for (i = 2; i <= 4094; i++) {
        print "(define-function count-" i " (one two)"
        print "  (let ((sum (+ one " i ")) (seen (count-" i - 1 " two one)))"
        print "    (if (and (< sum seen) (not (= one two)))"
        print "      (fold x (map y (list sum seen " i ") (* y 2)) a 0 (max a x))"
        print "      (length (concat \"number \" (text sum))))))"
    }
}' >"$files/functions"
pad "$files/functions"

awk 'BEGIN {
    print "(define-application-frame long (:size 12 1) (:panes (p 0 0 12 1 show)))(define-display show ())"
    printf "(define-function many (x0) (let ("
    for (i = 1; i <= 40000; i++) printf "(x%d x%d)", i, i - 1
    print ") x40000))"
}' >"$files/bindings"
pad "$files/bindings"
awk 'BEGIN {
    for (i = 1; i <= 300; i++) print "(define-application-frame f" i " (:size 12 1) (:slots (n integer (count-2000 1))) (:panes (p 0 0 12 1 show)))"
    print "(define-display show ())(define-function count-1 (x) x)"
    for (i = 2; i <= 2000; i++) print "(define-function count-" i " (x) (+ x (count-" i - 1 " x)))"
}' >"$files/frames"

measure lists 1 200
measure brackets 1 200
measure counter 0 200
measure functions 0 500
measure bindings 0 200
measure frames 1 500
