#!/usr/bin/env bash
# Proves and builds programs, and puts them into target/bin.
# demo/programs.sh [NAME..]: all five where no name is given. From nothing this takes some minutes.
set -u
cd "$(dirname "$0")/.." || exit 1
[ $# -gt 0 ] || set -- make_key sign_file check_file show_cell read_cell
mkdir -p target/bin
for name in "$@"; do
  # rt run builds a program and runs it: without words it prints 1
  if ! said=$(cd "crates/$name" && rt run 2>&1); then
    printf '%s\n' "$said"
    exit 1
  fi
  cp "crates/$name/out/$name" "target/bin/$name" || exit 1
done
