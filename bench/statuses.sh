#!/usr/bin/env bash
# Each status of the program, from outside: it runs the built program so that it ends with each of 0 to 8, and says where it does not. That memory is wanting is made
# so by a limit of the shell on the program's room; the other faults are files that are not there, folders, and outputs that are full or closed.
source "$(dirname "$0")/program.sh"
cat >"$files/counter.clim" <<'TEXT'
(define-application-frame counter (:size 12 2) (:slots (n integer 0)) (:panes (main 0 0 12 2 show)))
(define-display show () (write-text (text (slot n))))
(define-command com-add () (setf (slot n) (+ (slot n) 1)))
TEXT
printf '(define-display show (' >"$files/open.clim"
printf 'type Add\nreturn\nframe\n' >"$files/gestures"
yes frame | head -n 1000001 >"$files/many" || true
failed=0

# expect STATUS WHAT WORD...: the program on these words, with $input as its gestures and $output as its output
expect() {
    local status=0
    "$program" "${@:3}" <"$input" >"$output" 2>"$files/said" || status=$?
    if [ "$status" -eq "$1" ]; then
        echo "$1: $2"
    else
        echo "bench: $2 ended with $status and not with $1" >&2
        failed=1
    fi
}
input=$files/gestures output=/dev/null
expect 0 'an application runs to the end of its gestures' run "$files/counter.clim"
expect 1 'a text is refused' run "$files/open.clim"
expect 2 'the words are no command' walk "$files/counter.clim"
expect 3 'there is no such file' run "$files/none.clim"
input=$files expect 4 'the gestures cannot be read' run "$files/counter.clim"
if [ -e /dev/full ]; then
    output=/dev/full expect 5 'the output is full' run "$files/counter.clim"
fi
expect 6 'the wire cannot be made' run "$files/counter.clim" --wire "$files/none/wire"
input=$files/many expect 8 'there are more lines than a million' run "$files/counter.clim"
# a bench of 1,000 items wants more room than this
(
    ulimit -v 4000
    expect 7 'memory is wanting' bench 1000
    exit "$failed"
) || failed=1
exit "$failed"
