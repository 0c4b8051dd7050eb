#!/usr/bin/env bash
# Builds what is needed and runs the heater.
exec "$(dirname "$0")/../run.sh" heater
