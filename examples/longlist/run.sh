#!/usr/bin/env bash
# Builds what is needed and runs the long list.
exec "$(dirname "$0")/../run.sh" longlist
