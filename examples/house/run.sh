#!/usr/bin/env bash
# Builds what is needed and runs the house.
exec "$(dirname "$0")/../run.sh" house
