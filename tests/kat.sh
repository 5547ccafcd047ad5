#!/usr/bin/env bash
# Verifies every published signature in kat/*.rsp with the second program.
set -u
top=$(cd "$(dirname "$0")/.." && pwd) || exit 1
cd "$top" || exit 1

shopt -s nullglob
files=(kat/*.rsp)
if [ ${#files[@]} -eq 0 ]; then
    echo "no published known answers are in kat/: none were checked"
    echo "0 passed, 0 failed"
    exit 0
fi

if ! make -s -C second second; then
    echo "second/ does not build"
    echo "0 passed, 1 failed"
    exit 1
fi

passed=0
failed=0
for file in "${files[@]}"; do
    out=$(second/second kat "$file")
    echo "$file:"
    echo "$out"
    if [[ $(tail -n 1 <<<"$out") =~ ^([0-9]+)\ passed,\ ([0-9]+)\ failed$ ]]; then
        passed=$((passed + BASH_REMATCH[1]))
        failed=$((failed + BASH_REMATCH[2]))
    else
        echo "$file: the second program gave no count"
        failed=$((failed + 1))
    fi
done
echo "$passed passed, $failed failed"
[ "$failed" -eq 0 ]
