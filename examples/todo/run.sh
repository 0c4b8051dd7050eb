#!/usr/bin/env bash
# Builds what is needed and runs the to-do list.
exec "$(dirname "$0")/../run.sh" todo
