#!/usr/bin/env bash
# What questions on types take, through the built program that answers them, which is built here where it is not yet. For each question it
# prints the answer, the processor instructions of one question where valgrind is there, and its microseconds of user and system processor
# time. Each is the difference of a run that asks once and of one that asks many times, so what reads the text and builds the types falls
# out.
#   subtype: of two types of 255 or 256 names each, eight deep. The trees are binary, over 128 records: of `or`s, of `and`s, or of both by
#     turns, with the outermost named first. `apart`: no record of the one stands in the other; `one`: there is one record alone; `equal`:
#     the same tree twice; `last`: equal but for the last record. The chain is of `null-or-type`s and `or`s by turns, each `or` of about 83
#     records. The guarded types have 199 names: the first is of `and`s whose parts are `(or nil NEXT)`, the second of `or`s whose parts are
#     `(and t NEXT)`, so that no part is told before the next level is looked at.
#   member: of a list of 65,000 numbers in `(sequence (or symbol (integer 0 9) string))`, and of one twice as long. All are members, so all
#     are looked at, and the second takes twice as long as the first.
# No bound is set.
crate=clim_types
source "$(dirname "$0")/program.sh"

# tree FIRST STEP LAST EVEN ODD: levels of EVEN and ODD by turns over records from FIRST on, each STEP after the one before, but LAST at
# the end
tree() {
    awk -v first="$1" -v step="$2" -v last="$3" -v even="$4" -v odd="$5" '
        function put(level) {
            if (level == 7) {
                printf "r%d", ++put_so_far == 128 ? last : first
                first += step
                return
            }
            printf "(%s ", level % 2 ? odd : even
            put(level + 1)
            printf " "
            put(level + 1)
            printf ")"
        }
        BEGIN { put(0) }'
}

# chain FIRST LAST: `null-or-type` and `or` by turns over records from FIRST on, but LAST at the end
chain() {
    awk -v first="$1" -v last="$2" 'BEGIN {
        for (level = 0; level < 3; level++) {
            printf "(null-or-type (or"
            for (i = level < 2 ? 83 : 82; i > 0; i--) printf " r%d", first++
            printf " "
        }
        printf "(null-or-type r%d)))))))", last
    }'
}

# guarded FIRST OUTER INNER QUICK: levels of OUTER with three parts, each an INNER of QUICK, which is told at once, and the next level; the
# last is over records from FIRST on
guarded() {
    awk -v first="$1" -v outer="$2" -v inner="$3" -v quick="$4" '
        function put(level,    part) {
            printf "(%s", outer
            for (part = 0; part < 3; part++) {
                if (level == 3) {
                    printf " r%d", first++
                } else {
                    printf " (%s %s ", inner, quick
                    put(level + 1)
                    printf ")"
                }
            }
            printf ")"
        }
        BEGIN { put(0) }'
}

awk 'BEGIN { for (i = 0; i < 600; i++) print "(define-record r" i " x)" }' >"$files/records"

# asked TIMES: the text that asks the question so many times
asked() {
    cat "$files/records"
    printf '(times %d ' "$1"
    cat "$files/question"
    printf ')\n'
}

# instructions TIMES: of a run that asks so many times
instructions() {
    asked "$1" >"$files/asked"
    valgrind --tool=callgrind --callgrind-out-file=/dev/null "$program" <"$files/asked" 2>&1 >/dev/null |
        awk '/Collected/ { count += $NF } END {
            if (!count) { print "bench: valgrind counted no instructions" >"/dev/stderr"; exit 1 }
            printf "%.0f\n", count
        }'
}

# spent TIMES: the processor time of such a run, in seconds
spent() {
    local TIMEFORMAT='%U %S'
    asked "$1" >"$files/asked"
    { time "$program" <"$files/asked" >/dev/null; } 2>&1 | awk '{ print $1 + $2 }'
}

# ask NAME WANTED: prints what the question in the file takes, which is to have this answer
ask() {
    local answer times=4 once many
    answer=$(asked 1 | "$program")
    if [ "$answer" != "$2" ]; then
        echo "bench: the answer to $1 is $answer, not $2" >&2
        exit 1
    fi
    printf '%-36s %-3s' "$1" "$answer"
    if command -v valgrind >/dev/null; then
        awk '{ printf " %11.0f instructions", ($2 - $1) / 2 }' <<<"$(instructions 1) $(instructions 3)"
    fi
    once=$(spent 1)
    many=$(spent $times)
    while awk '{ exit !($2 - $1 < 0.4) }' <<<"$once $many" && [ "$times" -lt 4000000 ]; do
        times=$((4 * times))
        many=$(spent $times)
    done
    awk -v times="$times" '{ printf " %11.2f us\n", ($2 - $1) / (times - 1) * 1000000 }' <<<"$once $many"
}

# subtype NAME WANTED FIRST SECOND
subtype() {
    printf '(subtype %s %s)' "$3" "$4" >"$files/question"
    ask "$1" "$2"
}

# member COUNT: of a list of so many numbers
member() {
    awk -v count="$1" 'BEGIN {
        printf "(member (list"
        for (i = 0; i < count; i++) printf " %d", i % 10
        print ") (sequence (or symbol (integer 0 9) string)))"
    }' >"$files/question"
    ask "a list of $1 numbers" yes
}

subtype 'or, and: one' yes "$(tree 0 0 0 or or)" "$(tree 0 0 0 and and)"
subtype 'or, and: last' no "$(tree 0 0 0 or or)" "$(tree 0 0 1 and and)"
subtype 'and, or: apart' no "$(tree 0 1 127 and and)" "$(tree 300 1 427 or or)"
subtype 'and, or: last' yes "$(tree 0 1 500 and and)" "$(tree 300 1 500 or or)"
subtype 'or, or: equal' yes "$(tree 0 1 127 or or)" "$(tree 0 1 127 or or)"
subtype 'or, or: last' no "$(tree 0 1 127 or or)" "$(tree 0 1 500 or or)"
subtype 'and, and: equal' yes "$(tree 0 1 127 and and)" "$(tree 0 1 127 and and)"
subtype 'and, and: last' no "$(tree 0 1 127 and and)" "$(tree 0 1 500 and and)"
for turn in 'and or' 'or and'; do
    for other in 'and or' 'or and'; do
        # shellcheck disable=SC2086
        subtype "$turn, $other: apart" no "$(tree 0 1 127 $turn)" "$(tree 300 1 427 $other)"
    done
    # shellcheck disable=SC2086
    subtype "$turn, $turn: equal" yes "$(tree 0 1 127 $turn)" "$(tree 0 1 127 $turn)"
    # shellcheck disable=SC2086
    subtype "$turn, $turn: last" no "$(tree 0 1 127 $turn)" "$(tree 0 1 500 $turn)"
done
subtype 'chain, chain: apart' no "$(chain 0 248)" "$(chain 300 548)"
subtype 'chain, chain: equal' yes "$(chain 0 248)" "$(chain 0 248)"
subtype 'chain, chain: last' no "$(chain 0 248)" "$(chain 0 500)"
subtype 'guarded, guarded: apart' no "$(guarded 0 and or nil)" "$(guarded 300 or and t)"
member 65000
member 130000
