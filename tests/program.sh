#!/usr/bin/env bash
# Runs the built listing program on the examples, on a slow pipe, on input that is too long, and where it cannot write; then
# ./list twice, which the second time finds everything proved; then the program for likely scenarios in the same ways.
set -euo pipefail
cd "$(dirname "$0")/.."
mkdir -p target
rings=crates/rings/out/rings
likely=crates/likely/out/likely

# a byte at a time through a pipe, which makes short reads
slowly() {
    python3 - "$1" <<'PY'
import os, sys, time
for byte in open(sys.argv[1], "rb").read():
    os.write(1, bytes([byte]))
    time.sleep(0.001)
PY
}

for source in examples/*.txt; do
    name=${source%.txt}
    python3 tools/register.py "$source" "$name.register" --check
    "$rings" <"$name.register" | diff - "$name.listing"
done

slowly examples/document-01.register | "$rings" | diff - examples/document-01.listing

# the longest register, which is of version 3 and has 56,011 bytes; an input as long, and one byte more
longest='year T none, F 0.18\n2000 * flammable - - - 74-98-6 10,000 - - - 1\n'
python3 tools/register.py <(printf "$longest") target/longest.register
"$rings" <target/longest.register | tail -n 3 | diff - <(printf '2000 3 0 0.000 0.18\nT none\nF 1 0.18\n')
head -c 56011 /dev/zero | "$rings" | diff - <(echo "refused 1 at 0")
head -c 56012 /dev/zero | "$rings" | diff - <(echo "too long")
head -c 1000000 /dev/zero >target/long-input
"$rings" <target/long-input | diff - <(echo "too long")
"$rings" </dev/null | diff - <(echo "refused 1 at 0")

# errors are said on standard error and nothing is listed
"$rings" <examples 2>target/rings-error | diff - /dev/null
test -s target/rings-error
"$rings" <examples/document-01.register >/dev/full 2>target/rings-error || true
test -s target/rings-error

# ./list prints the listing and nothing beside it: on standard error only, and only where crates have to be proved for it, which
# crates those are, so that a second run is quiet; a file that is not there ends it with a message and status 1
./list examples/document-01.register 2>target/list-progress | diff - examples/document-01.listing
{ grep -v '^proving: ' target/list-progress || true; } | diff - /dev/null
./list examples/document-01.register 2>target/list-error | diff - examples/document-01.listing
test ! -s target/list-error
status=0
./list examples/no-such.register >target/list-output 2>target/list-error || status=$?
test "$status" = 1
test ! -s target/list-output
test -s target/list-error
echo "the program lists $(ls examples/*.txt | wc -l) examples as stored"

# likely scenarios, one line each; a line feed behind it is not missed and does no harm
for query in examples/*.query; do
    expected=${query%.query}.likely
    "$likely" <"$query" | diff - "$expected"
    printf %s "$(cat "$query")" | "$likely" | diff - "$expected"
    echo "$(cat "$query")" | "$likely" | diff - "$expected"
done
slowly examples/likely-chlorine.query | "$likely" | diff - examples/likely-chlorine.likely

# what is supplied is checked before the card, and the form of the line before either
asked() {
    echo "$1" | "$likely" | diff - <(echo "$2")
}
chlorine=1,2,2,0,7782-50-5,2500,0,0,0,0,
asked "0,0,$chlorine" "refused 17 at 0"
asked "1000000001,10,$chlorine" "refused 17 at 0"
asked "500000,0,$chlorine" "refused 18 at 0"
asked "500000,10,${chlorine/2500/0}" "refused 8 at 0"
asked "200000001,10,$chlorine" "refused 11 at 0"
asked "200000000,4294967295,$chlorine" "24 printed 4.80 407e000000000000"
asked "500000,10,$chlorine," "refused 12 at 1"
asked "500000,$chlorine" "refused 12 at 1"
asked "-1,10,$chlorine" "refused 12 at 1"
asked "" "refused 12 at 1"
printf '500000,10,%s\n\n' "$chlorine" | "$likely" | diff - <(echo "refused 12 at 1")
"$likely" </dev/null | diff - <(echo "refused 12 at 1")

# the longest input that is looked at, and one byte more
head -c 1000 /dev/zero | "$likely" | diff - <(echo "refused 12 at 1")
head -c 1001 /dev/zero | "$likely" | diff - <(echo "too long")
"$likely" <target/long-input | diff - <(echo "too long")

# errors are said on standard error and nothing is printed
"$likely" <examples 2>target/likely-error | diff - /dev/null
test -s target/likely-error
"$likely" <examples/likely-chlorine.query >/dev/full 2>target/likely-error || true
test -s target/likely-error
echo "the program finds the likely distances of $(ls examples/*.query | wc -l) examples as stored"
