#!/usr/bin/env bash
# Runs the built program's bench of 1, 10, 100 and 1,000 items, and prints each line with its processor time. A line that is not what the
# rules give ends it: the first N commands change one of N items each, which is erased and drawn, while the N - 1 others are kept; the last one
# puts an item in front, which is drawn, while the N others are moved.
source "$(dirname "$0")/program.sh"
TIMEFORMAT='  %U s user, %S s system'
for items in 1 10 100 1000; do
    time "$program" bench "$items" >"$files/line"
    cat "$files/line"
    meant="bench $items gestures $((2 * items + 2)) kept $((items * (items - 1))) moved $items drawn $((items + 1)) erased $items"
    if [ "$(cat "$files/line")" != "$meant" ]; then
        echo "bench: meant was $meant" >&2
        exit 1
    fi
done
