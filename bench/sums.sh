#!/usr/bin/env bash
# Times the proved program on one function of 256 sums in a row, each with a target, alone and with a requirement before each.
# Build the program first (./prove or rt ci).
set -u
top=$(cd "$(dirname "${BASH_SOURCE[0]}")/.." && pwd) || exit 1
program=$top/crates/solchc/out/solchc
[ -x "$program" ] || { echo "sums: build the program first: ./prove" >&2; exit 1; }
command -v python3 >/dev/null || { echo "sums: python3 is missing, skipped"; exit 0; }
folder=$(mktemp -d) || exit 1
trap 'rm -rf "$folder"' EXIT

python3 - "$program" "$folder" <<'PY'
import resource, subprocess, sys, time

program, folder = sys.argv[1:]
for kind, before in (("sums alone", ""), ("with requirements", "require(x < 1000); ")):
    path = folder + "/sums.sol"
    body = "".join(f"    {before}x = x + 1;\n" for _ in range(256))
    open(path, "w").write("contract Sums {\n  uint96 x;\n  function f() public {\n" + body + "  }\n}\n")
    start = time.time()
    done = subprocess.run([program, "check", path], stdout=subprocess.PIPE)
    seconds = time.time() - start
    last = done.stdout.decode().splitlines()[-1]
    print(f"{kind}: status {done.returncode}, {last}, {seconds:.2f} s")
peak = resource.getrusage(resource.RUSAGE_CHILDREN).ru_maxrss
print(f"at most {peak} KiB")
PY
