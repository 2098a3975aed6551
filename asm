#!/usr/bin/env bash
# Runs the program asm of these sources with the words given. Where it isn't built or released, it is proved and built first.
exec "$(dirname "$(readlink -f "${BASH_SOURCE[0]}")")/release/run" asm "$@"
