#!/usr/bin/env bash
# Builds what is needed and runs the counter.
exec "$(dirname "$0")/../run.sh" counter
