#!/usr/bin/env bash
# Moves a table between the two stored forms: ./move tonew OLD NEW; ./move --help says the rest.
exec "$(dirname -- "$(realpath -- "$0")")/scripts/python" move "$@"
