#!/usr/bin/env bash
# Times the proved program on a file of 262,144 bytes of ordinary contract text, which is cut into tokens, parsed and then
# refused as not built, and prints time and peak memory. Build the program first (./prove or rt ci).
set -u
top=$(cd "$(dirname "${BASH_SOURCE[0]}")/.." && pwd) || exit 1
program=$top/crates/solchc/out/solchc
[ -x "$program" ] || { echo "whole_text: build the program first: ./prove" >&2; exit 1; }
command -v python3 >/dev/null || { echo "whole_text: python3 is missing, skipped"; exit 0; }
folder=$(mktemp -d) || exit 1
trap 'rm -rf "$folder"' EXIT

python3 - "$folder/whole.sol" "$program" <<'PY'
import resource, subprocess, sys, time

path, program = sys.argv[1:]
part = """
  // What account {n} is owed, and how it is paid.
  mapping(address => mapping(address => uint96)) allowance{n};
  mapping(address => uint96) balance{n};
  uint96 public total{n} = 1_000 * 10 ** 3;
  event Paid{n}(address indexed from, address indexed to, uint96 value);
  modifier enough{n}(uint96 value) {{ require(balance{n}[msg.sender] >= value, "too little"); _; }}
  function pay{n}(address to, uint96 value) public virtual enough{n}(value) returns (bool) {{
    uint96 fee = value > 100 ? value / 100 : 1;
    for (uint8 i = 0; i < 3; i++) {{ if (i == 2 && fee != 0) break; else fee += i * 2 - 1; }}
    balance{n}[msg.sender] -= value;
    balance{n}[to] = balance{n}[to] + (value - fee) * 1 / 1;
    total{n} = total{n} - fee;
    assert(total{n} <= type(uint96).max);
    emit Paid{n}(msg.sender, to, value);
    return true;
  }}
"""
text = "pragma solidity ^0.8.0;\ncontract Whole {\n"
n = 0
while len(text) + len(part.format(n=n)) + 2 < 262144:
    text += part.format(n=n)
    n += 1
text += "}\n"
text += " " * (262144 - len(text))
open(path, "w").write(text)
start = time.time()
done = subprocess.run([program, "check", path], stdout=subprocess.PIPE)
seconds = time.time() - start
peak = resource.getrusage(resource.RUSAGE_CHILDREN).ru_maxrss
print(f"whole_text: {len(text)} bytes, {n} parts, status {done.returncode}, {done.stdout.decode().strip()}, {seconds:.3f} s, {peak} KiB")
good = done.returncode == 3 and done.stdout == b"refused not-built\n" and seconds <= 1 and peak <= 512 * 1024
sys.exit(0 if good else 1)
PY
