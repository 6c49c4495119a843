#!/bin/sh
# Tries the planted bugs of planted/CRATE, which the gate does not try: on a copy of the repository they take the place of the
# crate's must-fail edits, and each must be refused. What the gate has proved on this machine is not proved again.
# Usage: tools/planted.sh CRATE..
set -eu
cd "$(dirname "$0")/.."
copy=$(mktemp -d)
trap 'rm -rf "$copy"' EXIT
cp -a crates crates.txt "$copy"
for crate; do
    rm -f "$copy/crates/$crate/must-fail/"*.edit
    cp "planted/$crate/"*.edit "$copy/crates/$crate/must-fail/"
done
cd "$copy"
rt ci "$@"
