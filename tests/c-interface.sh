#!/usr/bin/env bash
# Compiles the C programs against the proved archive, which `rt lib` has written. What the example prints is compared with the
# listings and the leaders, the comma lines of the examples are read into their registers and written from them, likely distances
# are found, old answers are told, registers are edited, and the rings of days and of the year are told.
set -euo pipefail
cd "$(dirname "$0")/.."
mkdir -p target
for program in example lines likely old edit seasons; do
    gcc -std=c11 -Wall -Wextra -Werror -O2 -Ic "c/$program.c" crates/rings_c/out/librings_c.a -o "target/c-$program"
done

# what the archive needs from outside are two names of the C library, which a compiler for C asks for by itself
nm -u crates/rings_c/out/librings_c.a | awk '$1 == "U" { print $2 }' | sort -u | diff - <(printf 'memcpy\nmemset\n')

# ends with the status that is expected, and nothing on standard output
fails() {
    local expected=$1 status=0
    shift
    "$@" >target/c-output 2>target/c-error || status=$?
    test "$status" = "$expected"
    test ! -s target/c-output
}

# is sent back with this refusal
refused() {
    local refusal=$1
    shift
    fails 1 "$@"
    diff target/c-error <(echo "$refusal")
}

for leaders in examples/*.leaders; do
    name=${leaders%.leaders}
    target/c-example "$name.register" | diff - <(cat "$name.listing" "$leaders")
done
# the cards that the example has in itself are document 01's
target/c-example | diff - <(cat examples/document-01.listing examples/document-01.leaders)
# a register that is sent back ends the example with status 1
status=0
target/c-example examples/refused.register >target/c-listing || status=$?
test "$status" = 1
diff target/c-listing examples/refused.listing
echo "the C example prints the listings and the leaders of $(ls examples/*.leaders | wc -l) examples as stored"

# lines into the register, the register into lines in strict form, and those into the register again
for register in examples/*.register; do
    name=${register%.register}
    # versions 2 and 3 have no lines
    if [ ! -e "$name.lines" ]; then
        refused "refused 2 at 0" target/c-lines write <"$register"
        continue
    fi
    target/c-lines read <"$name.lines" | cmp - "$register"
    if [ "$name" = examples/refused ]; then
        refused "$(cat "$name.listing")" target/c-lines write <"$register"
        continue
    fi
    target/c-lines write <"$register" | cmp - "$name.strict"
    target/c-lines read <"$name.strict" | cmp - "$register"
done

# the second line has one field too many; 2,000 lines are read, 2,001 are not, and a bad line behind them is found first
line=$(head -n 1 examples/document-01.strict)
copies() {
    for ((i = 0; i < $1; i++)); do echo "$line"; done
}
refused "refused 12 at 2" target/c-lines read < <(copies 1 && echo "$line,")
test "$(target/c-lines read < <(copies 2000) | wc -c)" = 48007
refused "refused 13 at 0" target/c-lines read < <(copies 2001)
refused "refused 12 at 2002" target/c-lines read < <(copies 2001 && echo)
refused "refused 1 at 0" target/c-lines write </dev/null

# errors are said, with status 2
fails 2 target/c-lines read <examples
test -s target/c-error
fails 2 target/c-lines
test -s target/c-error
status=0
target/c-lines read <examples/document-01.lines >/dev/full 2>target/c-error || status=$?
test "$status" = 2
test -s target/c-error
echo "the C program reads and writes the comma lines of $(ls examples/*.lines | wc -l) examples as stored"

# likely distances: the first two fields of a query are what is supplied, the rest is the card's line
for query in examples/*.query; do
    IFS=, read -r rate minutes card <"$query" || true
    expected=$(cat "${query%.query}.likely")
    case $expected in
    refused*) refused "$expected" target/c-likely "$rate" "$minutes" <<<"$card" ;;
    *) target/c-likely "$rate" "$minutes" <<<"$card" | diff - <(echo "$expected") ;;
    esac
done

# 17 before 18, and both before the card; then the card, and the table last
chlorine=1,2,2,0,7782-50-5,2500,0,0,0,0,
propane=2,0,0,0,74-98-6,10000,0,0,0,13,
refused "refused 17 at 0" target/c-likely 0 0 <<<"$propane"
refused "refused 17 at 0" target/c-likely 1000000001 10 <<<"$chlorine"
refused "refused 17 at 0" target/c-likely 18446744073709551615 10 <<<"$chlorine"
refused "refused 18 at 0" target/c-likely 500000 0 <<<"$propane"
refused "refused 6 at 0" target/c-likely 500000 10 <<<"$propane"
refused "refused 8 at 0" target/c-likely 1000000000 10 <<<"${chlorine/2500/0}"
refused "refused 11 at 0" target/c-likely 200000001 10 <<<"$chlorine"
target/c-likely 200000000 4294967295 <<<"$chlorine" | diff - <(echo "24 printed 4.80 407e000000000000")

# a line that is none is named as such, and what is no query is said with status 2
refused "refused 12 at 1" target/c-likely 500000 10 <<<"$chlorine,"
refused "refused 12 at 1" target/c-likely 500000 10 < <(head -c 1000 /dev/zero)
fails 2 target/c-likely 500000 10 </dev/null
fails 2 target/c-likely 500000 -1 <<<"$chlorine"
fails 2 target/c-likely 500000 4294967296 <<<"$chlorine"
fails 2 target/c-likely 500000 10 <examples
fails 2 target/c-likely
echo "the C program finds the likely distances of $(ls examples/*.query | wc -l) examples as stored"

# a stored answer is old if its table is 13, and under no other: the card numbers here are the tables, and 13 is in other places
target/c-old <examples/stored.answers | diff - examples/stored.old
answer() {
    printf "$(printf '\\x%02x' 0 0 0 "$1" 13 "$1" 0 0 0 0 0 0 0 13 0 13)"
}
for table in {0..255}; do answer "$table"; done >target/c-answers
target/c-old <target/c-answers | diff - <(for table in {0..255}; do echo "$table current"; done | sed 's/^13 .*/13 old/')
target/c-old </dev/null | diff - /dev/null

# an answer that is cut short is said with status 2, and so are errors
fails 2 target/c-old < <(head -c 15 examples/stored.answers)
test -s target/c-error
fails 2 target/c-old <examples
status=0
target/c-old <examples/stored.answers >/dev/full 2>target/c-error || status=$?
test "$status" = 2
test -s target/c-error
echo "the C program tells old answers from those of the equation"

# the edits of the example, one after the other, from document 01's register; refused ones between them change nothing. Two days may
# stand before a card's line
before=examples/document-01.register
after=target/c-edited
edit() {
    target/c-edit "$@" <"$after" >"$after.next"
    mv "$after.next" "$after"
}
cp "$before" "$after"
while read -r word what; do
    if [[ $what =~ ^([0-9]+)\ ([0-9]+)\ (.*)$ ]]; then
        edit "$word" "${BASH_REMATCH[@]:1}"
    else
        edit "$word" "$what"
    fi
    refused "refused 19 at 0" target/c-edit withdraw 14 <"$after"
done <examples/edited.edits
cmp "$after" examples/edited.register

# the cards of a register of version 1, with the days 1 and 366 behind each
grown() {
    python3 - "$1" <<'PY'
import sys
cards = open(sys.argv[1], "rb").read()[7:]
sys.stdout.buffer.write(b"".join(cards[i:i + 24] + bytes([0, 1, 1, 110]) for i in range(0, len(cards), 24)))
PY
}

# an edit and its undoing: the cards are as before but for their days, and the register is of version 3
bromine=1,4,2,1,7726-95-6,20000,100,400,250,12,
edit replace "$bromine"
edit withdraw 9
edit add 2,0,0,0,74-98-6,10000,0,0,0,13,
cmp <(tail -c +12 "$after") <(grown "$before")
target/c-example "$after" | diff - <(cat examples/document-01.listing examples/document-01.leaders)
refused "refused 2 at 0" target/c-lines write <"$after"
for number in 11 12 13; do edit withdraw "$number"; done
cmp "$after" <(printf '\0\0\0\013\003\0\0\0\0\0\0')

# 19 before the new card, the new card at its new place, and the old register before both
refused "refused 19 at 0" target/c-edit add "${bromine/20000/0}" <"$before"
refused "refused 19 at 0" target/c-edit replace "${bromine/,12,/,14,}" <"$before"
refused "refused 19 at 0" target/c-edit withdraw 0 <"$before"
refused "refused 19 at 0" target/c-edit withdraw 4294967295 <"$before"
refused "refused 8 at 1" target/c-edit replace "${bromine/20000/0}" <"$before"
refused "refused 14 at 3" target/c-edit add "${bromine/400,250,12/10001,250,14}" <"$before"
refused "refused 21 at 1" target/c-edit replace 0 366 "$bromine" <"$before"
refused "refused 21 at 3" target/c-edit add 1 367 "${bromine/,12,/,14,}" <"$before"
refused "refused 15 at 3" target/c-edit add 65535 0 "${bromine/250,12/3001,14}" <"$before"
refused "refused 5 at 0" target/c-edit add "${bromine/,12,/,0,}" <"$before"
refused "refused 14 at 1" target/c-edit withdraw 1 <examples/refused.register
refused "refused 3 at 0" target/c-edit withdraw 9 <examples/stale.register
refused "refused 1 at 0" target/c-edit withdraw 12 </dev/null
refused "refused 1 at 0" target/c-edit withdraw 12 < <(head -c 78 "$before")
refused "refused 12 at 1" target/c-edit add "$bromine," <"$before"

# 2,000 cards may be replaced and withdrawn, and no more may be added
for ((i = 1; i <= 2000; i++)); do echo "2,0,0,0,74-98-6,10000,0,0,0,$i,"; done | target/c-lines read >"$after"
refused "refused 20 at 0" target/c-edit add 2,0,0,0,74-98-6,10000,0,0,0,2001, <"$after"
edit replace 2,0,0,0,74-98-6,20000,0,0,0,1000,
test "$(wc -c <"$after")" = 56011
refused "refused 20 at 0" target/c-edit add 2,0,0,0,74-98-6,10000,0,0,0,2001, <"$after"
edit withdraw 1
edit add 2,0,0,0,74-98-6,10000,0,0,0,2001,
cmp <(head -c 11 "$after") <(printf '\0\0\332\313\003\007\320\0\0\0\026')
fails 2 target/c-edit withdraw 2 < <(cat "$after" && echo)
test -s target/c-error

# what is no edit is said with status 2, and so are errors
fails 2 target/c-edit <"$before"
fails 2 target/c-edit withdraw <"$before"
fails 2 target/c-edit withdraw -1 <"$before"
fails 2 target/c-edit withdraw 4294967296 <"$before"
fails 2 target/c-edit drop 12 <"$before"
fails 2 target/c-edit add "" <"$before"
fails 2 target/c-edit add 60 "$bromine" <"$before"
fails 2 target/c-edit add 60 65536 "$bromine" <"$before"
fails 2 target/c-edit add -1 151 "$bromine" <"$before"
fails 2 target/c-edit withdraw 60 151 12 <"$before"
fails 2 target/c-edit withdraw 12 <examples
test -s target/c-error
status=0
target/c-edit withdraw 12 <"$before" >/dev/full 2>target/c-error || status=$?
test "$status" = 2
test -s target/c-error
echo "the C program edits registers as stored"

# the depot in March, in August, over the year, and by its calendar
depot=examples/depot.register
seasons=target/c-seasons
"$seasons" 75 220 year calendar <"$depot" | diff - examples/depot.days
# its days one by one are those of the calendar
"$seasons" {1..366} <"$depot" | cut -d' ' -f3- | uniq | diff - <("$seasons" calendar <"$depot" | cut -d' ' -f5-)
# older cards are in force on every day
rings="T 12 1.80, F 13 0.18"
"$seasons" 1 366 calendar year <"$before" | diff - <(
    printf 'on 1: %s\non 366: %s\nfrom 1 to 366: %s\n' "$rings" "$rings" "$rings"
    echo "over the year: T 12 1.80 on 1, F 13 0.18 on 1"
)
"$seasons" 1 calendar year <examples/empty.register | diff - <(
    printf 'on 1: %s\nfrom 1 to 366: %s\nover the year: %s\n' "T none, F none" "T none, F none" "T none, F none"
)

# a day that no year has comes last, and after what was asked for before it
for day in 0 367 512 4294967295; do
    refused "refused 21 at 0" "$seasons" "$day" <"$depot"
    refused "refused 14 at 1" "$seasons" "$day" <examples/refused.register
    refused "refused 3 at 0" "$seasons" "$day" <examples/stale.register
done
for asked in 1 year calendar; do
    refused "refused 14 at 1" "$seasons" "$asked" <examples/refused.register
    refused "refused 3 at 0" "$seasons" "$asked" <examples/stale.register
    refused "refused 1 at 0" "$seasons" "$asked" </dev/null
done
status=0
"$seasons" 75 367 220 <"$depot" >target/c-output 2>target/c-error || status=$?
test "$status" = 1
diff target/c-output <(head -n 1 examples/depot.days)
diff target/c-error <(echo "refused 21 at 0")

# what is no day is said with status 2 before anything is printed, and so are errors
for asked in "" -1 4294967296 day 1.0; do fails 2 "$seasons" 75 "$asked" <"$depot"; done
fails 2 "$seasons" <"$depot"
fails 2 "$seasons" 75 < <(head -c 56012 /dev/zero)
fails 2 "$seasons" 75 <examples
test -s target/c-error
status=0
"$seasons" 75 <"$depot" >/dev/full 2>target/c-error || status=$?
test "$status" = 2
test -s target/c-error
echo "the C program tells the rings of days and of the year as stored"
