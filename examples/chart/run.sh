#!/usr/bin/env bash
# Builds what is needed and runs the chart.
exec "$(dirname "$0")/../run.sh" chart
