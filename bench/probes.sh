#!/usr/bin/env bash
# Times the proved program on contracts whose targets mostly stay open under the lemmas, so that the probes decide: 64 functions of 2
# and of 8 sums each. Build the program first (./prove or rt ci).
set -u
top=$(cd "$(dirname "${BASH_SOURCE[0]}")/.." && pwd) || exit 1
program=$top/crates/solchc/out/solchc
[ -x "$program" ] || { echo "probes: build the program first: ./prove" >&2; exit 1; }
command -v python3 >/dev/null || { echo "probes: python3 is missing, skipped"; exit 0; }
folder=$(mktemp -d) || exit 1
trap 'rm -rf "$folder"' EXIT

python3 - "$program" "$folder" <<'PY'
import resource, subprocess, sys, time

program, folder = sys.argv[1:]
for sums in (2, 8):
    lines = ["contract Probes {"] + [f"  uint96 x{i};" for i in range(48)]
    for f in range(64):
        body = " ".join(f"x{(f + s) % 48} = x{(f + s + 1) % 48} + {s + 1};" for s in range(sums))
        lines.append(f"  function f{f}() public {{ {body} }}")
    path = folder + "/probes.sol"
    open(path, "w").write("\n".join(lines + ["}"]) + "\n")
    start = time.time()
    done = subprocess.run([program, "check", path], stdout=subprocess.PIPE)
    seconds = time.time() - start
    print(f"{sums} sums: status {done.returncode}, {done.stdout.decode().splitlines()[-1]}, {seconds:.2f} s")
peak = resource.getrusage(resource.RUSAGE_CHILDREN).ru_maxrss
print(f"at most {peak} KiB")
PY
