#!/usr/bin/env bash
# Builds what is needed and runs the browser of albums.
exec "$(dirname "$0")/../run.sh" albums
