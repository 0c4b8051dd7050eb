#!/usr/bin/env bash
# Builds what is needed and runs the shop.
exec "$(dirname "$0")/../run.sh" shop
