#!/usr/bin/env bash
# Times a newcomer's first minutes in a fresh clone of this checkout: the first answer, unproved; and ./prove, with the answer after
# it. Proofs that the toolchain kept of other checkouts on the machine count: on a machine that has proved nothing it says what a
# newcomer waits. With the word `answer` it times the first answer alone.
set -u
top=$(cd "$(dirname "${BASH_SOURCE[0]}")/.." && pwd) || exit 1
folder=$(mktemp -d) || exit 1
trap 'rm -rf "$folder"' EXIT
git clone -q "$top" "$folder/solchc" || exit 1
cd "$folder/solchc" || exit 1

seconds() { # a name, and a command
  local name=$1 start
  shift
  start=$(date +%s)
  "$@" >"$folder/out" 2>"$folder/err"
  echo "$name: status $?, $(($(date +%s) - start)) s, $(tail -n 1 "$folder/out")"
}

echo "$(nproc) processors"
seconds "first answer, unproved" ./solchc check examples/first.sol
[ "${1:-}" = answer ] && exit 0
seconds "./prove" ./prove
seconds "an answer, proved" ./solchc check examples/first.sol
