#!/usr/bin/env bash
# Builds what is needed and runs the court.
exec "$(dirname "$0")/../run.sh" court
