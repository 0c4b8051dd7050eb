#!/usr/bin/env bash
# Builds what is needed and runs the order form.
exec "$(dirname "$0")/../run.sh" order
