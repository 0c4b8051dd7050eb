#!/usr/bin/env bash
# Pipes a stream of gestures through the built program and prints its processor time in seconds.
#   comments: 1,000,000 comment lines, 2 s at most
#   commands: 200,000 runs of the counter's command, no bound
case ${1-} in
    comments)
        bound='2 s at most'
        line='# a comment that says nothing'
        count=1000000
        ;;
    commands)
        bound='no bound'
        line=$'type Add\nreturn'
        count=400000
        ;;
    *)
        echo 'usage: bench/streams.sh comments|commands' >&2
        exit 2
        ;;
esac
source "$(dirname "$0")/program.sh"
{ yes "$line" || true; } | head -n "$count" >"$files/stream"
TIMEFORMAT="${1}: %U s user, %S s system ($bound)"
time "$program" run crates/clim_cases/data/counter.clim <"$files/stream" >/dev/null
