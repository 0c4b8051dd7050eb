#!/usr/bin/env bash
# Builds what is needed and runs the browser.
exec "$(dirname "$0")/../run.sh" browser
