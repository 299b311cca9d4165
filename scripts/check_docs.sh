#!/usr/bin/env bash
# Checks the pages against the tree, and says each fault in one line. With --write it first writes docs/DEFINITIONS.md anew.
exec python3 "$(dirname "$0")/check_docs.py" "$@"
