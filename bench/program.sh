# The first steps of every bench, which reads this file in: a fault ends it, it stands at the top of the repository, `program` is the
# built program of the crate that `crate` names (`clim_run` where it names none), which is built here where it is not yet, and `files`
# a folder that is gone when the bench ends.
set -euo pipefail
cd "$(dirname "${BASH_SOURCE[0]}")/.."
crate=${crate:-clim_run}
program=crates/$crate/out/$crate
if [ ! -x "$program" ]; then
    echo 'bench: proving and building the program, which takes an hour or more the first time' >&2
    words=()
    if [ "$crate" = clim_run ]; then
        words=(run "$PWD/crates/clim_cases/data/counter.clim")
    fi
    (cd "crates/$crate" && rt run -- "${words[@]}" </dev/null) >&2
fi
files=$(mktemp -d)
trap 'rm -rf "$files"' EXIT
