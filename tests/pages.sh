#!/bin/bash
# Asks whether what the pages name is there: see tests/pages.py, which wants Python 3.
cd "$(dirname "${BASH_SOURCE[0]}")/.." || exit 1
exec python3 tests/pages.py
