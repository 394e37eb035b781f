#!/bin/bash
# Tries all wrong bodies, also those that the gate passes over (must-fail/*.edit.md), of the crates that are named, or of
# all, the oracles among them: each has to be refused. It works in a copy, and takes several of a crate in one check
# (tests/wrong_bodies.py), so that what lies below is read once for all of them. It proves first what wasn't proved on this
# machine, and wants Python 3.
set -e
cd "$(dirname "${BASH_SOURCE[0]}")/.."
work=$(mktemp -d)
trap 'rm -rf "$work"' EXIT
tries=$PWD/tests/wrong_bodies.py
tests/lay.sh "$work/copy" src specs proofs must-fail out
cd "$work/copy"
python3 "$tries" "$@"
