# program.sh: what the scripts of this folder share; it is read in by them.

examples=$(cd "$(dirname "${BASH_SOURCE[0]}")" && pwd)

# say WORD WHAT: says which program runs an example.
say() {
    if [ "$1" = run ]; then
        echo "run by $2" >&2
    fi
}

# program WORD FILE: runs the program with this word, `run` or `check`, on the application FILE, and ends with its status. It is the program that
# the variable CLIM_RUN names, else the proved one where it is built, else `rt try`, which proves nothing.
program() {
    local built=$examples/../crates/clim_run/out/clim_run file
    if [ -n "${CLIM_RUN:-}" ]; then
        say "$1" "$CLIM_RUN"
        "$CLIM_RUN" "$1" "$2"
    elif [ -x "$built" ]; then
        say "$1" 'the proved program, crates/clim_run/out/clim_run'
        "$built" "$1" "$2"
    else
        echo "$1 by rt try, which proves nothing and takes a minute to compile" >&2
        echo "to build the proved program: cd crates/clim_run && rt run -- $1 APP (an hour or more of processor time the first time)" >&2
        file=$(cd "$(dirname "$2")" && pwd)/$(basename "$2")
        (cd "$examples/../crates/clim_run" && exec rt try --data "app.clim=$file" -- "$1" app.clim)
    fi
}
