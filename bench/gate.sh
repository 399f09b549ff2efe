#!/usr/bin/env bash
# Times the whole gate from nothing: every proof, edit, test and program, though the toolchain has kept some.
set -u
cd "$(dirname "${BASH_SOURCE[0]}")/.." || exit 1
start=$(date +%s)
rt ci --anew >"${TMPDIR:-/tmp}/gate.log" 2>&1
echo "$(nproc) processors: status $?, $((($(date +%s) - start) / 60)) minutes, $(tail -n 1 "${TMPDIR:-/tmp}/gate.log")"
