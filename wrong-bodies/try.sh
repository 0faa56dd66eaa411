#!/usr/bin/env bash
# Tries the wrong bodies that the prover must reject: wrong-bodies/try.sh --help
exec python3 "$(dirname "$0")/try.py" "$@"
