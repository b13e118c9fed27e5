#!/usr/bin/env bash
# Prints for 1,000 to 10,000 statements of each kind how long versions and extraction take, and the most memory of the whole run in MB.
# The first word is the built program. No test of the gate runs this.

program=$1
[ -x "$program" ] || { echo 'memory.sh PROGRAM: the built program is wanted' >&2; exit 1; }
for kind in near far; do
  for count in 1000 2000 5000 10000; do
    python3 -c '
import resource, subprocess, sys
subprocess.run(sys.argv[1:], check=True)
used = resource.getrusage(resource.RUSAGE_CHILDREN)
print(f"  {used.ru_utime:.2f} processor seconds, {used.ru_stime:.2f} of the system, at most {used.ru_maxrss // 1024} MB", flush=True)
' "$program" "$kind" "$count"
  done
done
