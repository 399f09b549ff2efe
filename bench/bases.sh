#!/usr/bin/env bash
# Times the proved program on files of some 262,144 bytes that are one chain of contracts, each derived from another: with each
# base before what is derived from it, and behind it. Build the program first (./prove or rt ci).
set -u
top=$(cd "$(dirname "${BASH_SOURCE[0]}")/.." && pwd) || exit 1
program=$top/crates/solchc/out/solchc
[ -x "$program" ] || { echo "bases: build the program first: ./prove" >&2; exit 1; }
command -v python3 >/dev/null || { echo "bases: python3 is missing, skipped"; exit 0; }
folder=$(mktemp -d) || exit 1
trap 'rm -rf "$folder"' EXIT

python3 - "$program" "$folder" <<'PY'
import itertools, resource, string, subprocess, sys, time

program, folder = sys.argv[1:]
most = 262144
chain, size, base = [], 0, None
for length in (1, 2, 3):
    for letters in itertools.product(string.ascii_uppercase, repeat=length):
        name = "".join(letters)
        line = f"contract {name}{' is ' + base if base else ''}{{}}\n"
        # room for the last contract of the second file
        if size + len(line) > most - 32:
            break
        chain.append(line)
        size, base = size + len(line), name
files = {
    "bases before": "".join(chain),
    "bases behind": "".join(reversed(chain)) + f"contract LAST is {base}{{}}\n",
}
for kind, text in files.items():
    path = folder + "/chain.sol"
    open(path, "w").write(text)
    start = time.time()
    done = subprocess.run([program, "check", path], stdout=subprocess.PIPE)
    seconds = time.time() - start
    peak = resource.getrusage(resource.RUSAGE_CHILDREN).ru_maxrss
    answer = done.stdout.decode().strip()
    print(f"{kind}: {text.count('contract')} contracts, {len(text)} bytes, status {done.returncode}, {answer}, {seconds:.2f} s, at most {peak} KiB")
PY
