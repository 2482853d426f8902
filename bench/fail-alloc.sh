#!/bin/sh
# Lets each allocation of one GET fail in turn, until all succeed: each run ends with status 5 and its line, or with the
# reply as if nothing had failed.
top=$(cd "$(dirname "$0")/.." && pwd)
cd "$top/crates/unit_program" || exit 1
command -v rt >/dev/null 2>&1 || { echo 'bench/fail-alloc.sh: skipped, since rt is not here'; exit 0; }
out=$(mktemp) err=$(mktemp)
n=1
while [ "$n" -le 200 ]; do
    rt try --fail-alloc "$n" -- once hello <stdin >"$out" 2>"$err"
    status=$?
    if [ "$status" -eq 5 ] && [ ! -s "$out" ] && grep -q '^unit: memory$' "$err"; then
        n=$((n + 1))
        continue
    fi
    if [ "$status" -eq 0 ] && cmp -s "$out" stdout; then
        echo "fail-alloc: allocations 1 to $((n - 1)) gave status 5, and run $n the whole reply"
        rm -f "$out" "$err"
        exit 0
    fi
    echo "fail-alloc: run $n ended with status $status"
    cat "$err"
    exit 1
done
echo 'fail-alloc: no end within 200 runs'
exit 1
