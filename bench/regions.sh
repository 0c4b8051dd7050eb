#!/usr/bin/env bash
# What it takes to add 100,000 single cells to an empty region, row by row, 400 columns by 250 rows, through the built program that answers
# what is in a region, which is built here where it is not yet. It prints the processor instructions where valgrind is there, and else the
# microseconds of user and system processor time, and then the milliseconds by the clock. Each is the difference of a run that does so a few
# times and of one that does so more often, so what starts and ends the program falls out. Of times the least of nine is taken.
crate=clim_regions
source "$(dirname "$0")/program.sh"
few=1
more=3
often=41

# regions TIMES: the lines that begin anew and add these cells so many times
regions() {
    { yes 'cells 400 250' || true; } | head -n "$1"
}

# instructions TIMES: of a run that does so
instructions() {
    regions "$1" | valgrind --tool=callgrind --callgrind-out-file=/dev/null "$program" 2>&1 >/dev/null |
        awk '/Collected/ { count += $NF } END {
            if (!count) { print "bench: valgrind counted no instructions" >"/dev/stderr"; exit 1 }
            printf "%.0f\n", count
        }'
}

# seconds FORMAT TIMES: of a run that does so, as bash's `time` tells them, the least of nine
seconds() {
    local TIMEFORMAT=$1
    regions "$2" >"$files/regions"
    for _ in {1..9}; do
        { time "$program" <"$files/regions" >/dev/null; } 2>&1
    done | sort -n | head -n 1
}

if [ "$(regions "$few" | "$program" | sort -u)" != 'pieces 1 cells 100000' ]; then
    echo 'bench: the cells did not make one piece' >&2
    exit 1
fi
if command -v valgrind >/dev/null; then
    awk -v times=$((more - few)) '{
        each = ($2 - $1) / times
        printf "100,000 cells: %.0f instructions, %.0f a cell\n", each, each / 100000
    }' <<<"$(instructions "$few") $(instructions "$more")"
else
    awk -v times=$((often - few)) '{
        printf "100,000 cells: %.0f microseconds\n", (($3 + $4) - ($1 + $2)) / times * 1000000
    }' <<<"$(seconds '%U %S' "$few") $(seconds '%U %S' "$often")"
fi
awk -v times=$((often - few)) '{
    printf "by the clock: %.1f ms\n", ($2 - $1) / times * 1000
}' <<<"$(seconds %R "$few") $(seconds %R "$often")"
