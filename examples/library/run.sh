#!/usr/bin/env bash
# Builds what is needed and runs the library.
exec "$(dirname "$0")/../run.sh" library
