#!/usr/bin/env bash
# explain.sh APP [REFUSAL]: says why the application in the file APP is refused: FILE:LINE:COLUMN and the meaning, the line, and a mark under the
# place. Where a form is not closed it says too where that form most likely begins. All of this goes to standard error. It loads the application
# by `check`, or takes the line `refused K at OFFSET` of an earlier run as its second word, and ends with the status of `check`. Columns are
# counted in bytes, from 1. What each refusal means exactly stands in docs/language.md, "Refusals".
set -euo pipefail
here=$(dirname "${BASH_SOURCE[0]}")
. "$here/program.sh"
if [ $# -lt 1 ] || [ $# -gt 2 ]; then
    echo 'usage: explain.sh APP [REFUSAL]' >&2
    exit 2
fi
application=$1
status=1
if [ $# -eq 2 ]; then
    said=$2
else
    status=0
    said=$(program check "$application") || status=$?
fi
if [ "$status" -ne 1 ]; then
    if [ "$status" -eq 3 ]; then
        echo "$application: cannot be read" >&2
    elif [ -n "$said" ]; then
        printf '%s\n' "$said"
    fi
    exit "$status"
fi
if ! [[ $said =~ ^refused\ ([0-9]+)\ at\ ([0-9]+)(\ path\ (.*))?$ ]]; then
    printf '%s: no refusal: %s\n' "$application" "$said" >&2
    exit 1
fi
export LC_ALL=C
number=${BASH_REMATCH[1]} offset=${BASH_REMATCH[2]} path=${BASH_REMATCH[4]:-} file=$application \
    awk -f "$here/explain.awk" <"$application" >&2
exit 1
