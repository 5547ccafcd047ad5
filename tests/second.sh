#!/usr/bin/env bash
# Builds the second program, runs its self test and recomputes the vectors; a
# vector with one digit changed has to be refused.
set -u
top=$(cd "$(dirname "$0")/.." && pwd) || exit 1
cd "$top" || exit 1

if ! make -s -C second second; then
    echo "second/ does not build"
    echo "0 passed, 1 failed"
    exit 1
fi
second=second/second
vectors=tests/vectors/r3.rsp
passed=0
failed=0

# count NAME COMMAND...: adds the counts of the command's last line
count() {
    local name=$1 out last
    shift
    out=$("$@")
    last=$(tail -n 1 <<<"$out")
    if [[ $last =~ ^([0-9]+)\ passed,\ ([0-9]+)\ failed$ ]]; then
        passed=$((passed + BASH_REMATCH[1]))
        failed=$((failed + BASH_REMATCH[2]))
    else
        failed=$((failed + 1))
    fi
    echo "$name:"
    echo "$out"
}

# refused FIELD: changes the first digit of that field in every vector
refused() {
    local changed last
    changed=$(mktemp) || exit 1
    sed -E "s/^($1 = )0/\1x/; s/^($1 = )[1-9a-f]/\10/; s/^($1 = )x/\11/" "$vectors" >"$changed"
    last=$("$second" check_rsp "$changed" | tail -n 1)
    rm -f "$changed"
    if [ "$last" = "0 passed, 4 failed" ]; then
        passed=$((passed + 1))
    else
        failed=$((failed + 1))
        echo "vectors with another $1: $last"
    fi
}

count selftest "$second" selftest
count "$vectors" "$second" check_rsp "$vectors"
for field in seed_key pk sk mlen salt mseed place sig; do
    refused "$field"
done
echo "$passed passed, $failed failed"
[ "$failed" -eq 0 ]
