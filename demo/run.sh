#!/usr/bin/env bash
# A key made, a file signed and checked, a damaged file refused, the key carried in a table: each step, what it prints and what that means.
# demo/run.sh [DIR]: DIR holds the programs, target/bin where it is left out. Programs that are not there yet are proved and built first.
set -u
cd "$(dirname "$0")/.." || exit 1
programs=${1:-target/bin}
for name in make_key sign_file check_file show_cell read_cell; do
  if [ ! -x "$programs/$name" ]; then
    echo "The programs are not built yet: they are proved and built first. From nothing this takes some minutes."
    bash demo/programs.sh || exit 1
    programs=target/bin
    break
  fi
done
programs=$(cd "$programs" && pwd) || exit 1
room=$(mktemp -d) || exit 1
trap 'rm -rf "$room"' EXIT
cd "$room" || exit 1
wrong=0

# step EXPECTED MEANING PROGRAM WORDS..: runs the program, shows its answer and what it means
step() {
  local expected=$1 meaning=$2 answer
  shift 2
  answer=$("$programs/$1" "${@:2}")
  printf '  %s\n  prints %s: %s\n' "$*" "$answer" "$meaning"
  if [ "$answer" != "$expected" ]; then
    wrong=1
    printf '  NOT AS EXPECTED: %s\n' "$expected"
  fi
}

printf '\n1. A key pair from 32 random bytes. Whoever has the seed or secret.key can sign.\n'
head -c 32 /dev/urandom >seed
step 0 'done; public.key and secret.key are written' make_key seed public.key secret.key
ls -l public.key secret.key | sed 's/^/  /'

printf '\n2. A file, signed. Salt and master seed are 16 random bytes each, drawn anew for every signature.\n'
printf 'Moved: 1204 records, table customers, from old to new.\n' >report.txt
head -c 16 /dev/urandom >salt
head -c 16 /dev/urandom >master
printf '\000\000\020\000' >tries
step 0 'done; report.sig is written. tries holds 1,048,576, the most that may be allowed' \
  sign_file secret.key report.txt salt master tries report.sig
printf '  report.sig has %s bytes\n' "$(wc -c <report.sig)"

printf '\n3. Checked by anyone who has the public key.\n'
step 0 'accepted: this is a signature of exactly these bytes under this key' check_file public.key report.txt report.sig

printf '\n4. One digit of the file changed.\n'
sed 's/1204/1205/' report.txt >changed.txt
step 6 'rejected: this signature is not one of this file under this key' check_file public.key changed.txt report.sig

printf '\n5. A signature that lost its last byte on the way.\n'
head -c 3483 report.sig >short.sig
step 1 'a file has a wrong length; no signature was looked at' check_file public.key report.txt short.sig

printf '\n6. Only one try allowed, with a salt whose first nonce does not pass (most do not: about 1 in 512 does).\n'
printf '\001\000\000\000' >one
for _ in 1 2 3 4 5 6 7 8 9; do
  rm -f once.sig
  head -c 16 /dev/urandom >salt
  answer=$("$programs/sign_file" secret.key report.txt salt master one once.sig)
  [ "$answer" = 5 ] && break
done
step 5 'none of the allowed tries passes; nothing is written. Allow more tries' sign_file secret.key report.txt salt master one once.sig

printf '\n7. The public key as a cell of a table: 120 hexadecimal characters.\n'
"$programs/show_cell" public.key >cell
printf '  show_cell public.key\n  prints %s\n' "$(cat cell)"
step 0 'done; again.key is written' read_cell cell again.key
if cmp -s public.key again.key; then echo '  again.key and public.key are the same'; else wrong=1; fi

printf '\n8. A cell that lost its first character, as where a spreadsheet takes it for a number and drops a leading zero.\n'
cut -c 2- cell | tr -d '\n' >cut
step 7 'not 120 characters. Nothing is filled up, and nothing is written' read_cell cut lost.key

printf '\n9. A cell with a space in place of its last character.\n'
printf '%s ' "$(cut -c 1-119 cell)" >spaced
step 8 'a character is no hexadecimal digit; nothing is written' read_cell spaced lost.key

if [ "$wrong" -ne 0 ]; then
  printf '\nThe demo did not go as expected.\n'
  exit 1
fi
printf '\nAll as expected.\n'
