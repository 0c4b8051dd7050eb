#!/usr/bin/env bash
# Builds what is needed and runs the console.
exec "$(dirname "$0")/../run.sh" console
