#!/usr/bin/env bash
# Builds what is needed and runs the box of letters, a long list of which little changes at a time.
exec "$(dirname "$0")/../run.sh" letters
