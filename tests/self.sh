#!/bin/sh
# Sees that the checks can fail: each is tried with programs, and with libraries behind the C face, that do nothing or refuse every call,
# and must fail with each. Behind the builds of tests/all, whose programs it uses.
set -u
cd "$(dirname "$0")/.." || exit 2
. tests/kit.sh
. tests/recorded.sh
. tests/checks.sh
seed=1 tried=0 blind=0
rm -f "$made"/self-*.cases

# fails WHAT COMMAND [WORDS..]: the command must not do well.
fails() {
    what=$1
    shift
    tried=$((tried + 1))
    ("$@") >"$made/self-tried.log" 2>&1 || return 0
    blind=$((blind + 1))
    echo "self: $what: the check does well"
}

# with_rt FAULT COMMAND: the command with tests/self/wrong-rt in the place of rt, with one fault, or none where FAULT is empty.
with_rt() (
    mkdir -p "$made/idle" && cp tests/self/wrong-rt "$made/idle/rt" || exit 2
    export PATH="$(cd "$made/idle" && pwd -P):$PATH" L1_FAULT="$1"
    "$2"
)

# gate_with_none: what with_rt sees is the fault.
gate_with_none() { ! with_rt '' gate; }

# with_edit_lost COMMAND: the command where one wrong program more is expected than there is.
with_edit_lost() (
    awk 'NR == 1 { $2++ } { print }' tests/expected >"$made/self-expected"
    export L1_EXPECTED="$made/self-expected"
    "$1"
)

# with_other NAME PROGRAM COMMAND: the command with that program where the variable NAME says which.
with_other() (
    export "$1=$2"
    "$3"
)

# no_difference DRIVER KIND: the judge counts none on a few cases; that they are too few to reach everything is not what is asked. The cases are
# the same for every driver, and are written once.
no_difference() {
    cases=$made/self-$2.cases
    [ -f "$cases" ] || target/second "$2" "$seed" 500 "$cases" >/dev/null || return 0
    run_c "$1${face:-}" "$2" <"$cases" | target/second "judge-$2" "$seed" 500 /dev/stdin >"$made/judge.log" 2>&1
    ! grep -q "^$2: 500 .*, [1-9][0-9]* differences" "$made/judge.log"
}

# with_fault FACE KIND FAULT: whether the judge counts none on cases of the kind by tests/self/FACE.c with one fault, or with none where
# FAULT is empty.
with_fault() (
    export L1_FAULT="$3"
    face=-$1
    no_difference driver "$2"
)

# without_fault FACE KIND: what with_fault sees is the fault.
without_fault() { ! with_fault "$1" "$2" ''; }

# with_make FAULT COMMAND [WORDS..]: the command with the program tests/self/wrong-make, whose make has one fault, or none where it is empty.
with_make() (
    export L1_FAULT="$1" L1_PROGRAM="$PWD/tests/self/wrong-make"
    shift
    "$@"
)

# answers_with_none: what with_make sees is the fault.
answers_with_none() { ! with_make '' tests/tool.sh answers; }

fails 'rt ci, no fault' gate_with_none
for fault in nothing fails-at-the-end fails-quietly not-ok a-crate-unproved a-crate-lost a-crate-too-many nothing-refused one-not-refused one-lost \
    one-in-anothers-place one-bad one-for-a-name; do
    fails "rt ci, $fault" with_rt "$fault" gate
done
fails 'a wrong program is lost' with_edit_lost expected
for program in tests/self/nothing tests/self/refuses; do
    fails "listings, $program" with_other L1_KEYPUNCH "$program" listings
    fails "second-tests, $program" with_other L1_SECOND_TESTS "$program" second_tests
    fails "second-self, $program" with_other L1_SECOND "$program" second_self
done
for program in nothing refuses refuses-work; do
    export L1_PROGRAM="$PWD/tests/self/$program"
    for part in answers rooms foreign making faults refused modes order stopped killed; do fails "tool-$part, $program" tests/tool.sh "$part"; done
    fails "recorded, $program" recorded
    fails "prepared, $program" prepared
    fails "door, $program" env L1_DOOR="$L1_PROGRAM" sh -c '. tests/kit.sh && . tests/checks.sh && door'
done
unset L1_PROGRAM
fails 'tool-answers, make with no fault' answers_with_none
while read -r fault parts; do
    for part in $parts; do
        case $part in
        prepared) fails "prepared, make: $fault" with_make "$fault" prepared ;;
        *) fails "tool-$part, make: $fault" with_make "$fault" tests/tool.sh "$part" ;;
        esac
    done
done <<END
nothing foreign making order prepared
refuses making prepared
line-end answers foreign making
own-number answers prepared
tells-a-cell foreign
touches making
rewrites making
leaves making
silent making
END
for stub in idle refusing silent; do
    for name in cases driver front roots; do
        if [ "$stub" = silent ]; then
            build_c "$name-$stub" panel tests/self/silent.c
        else
            build_c "$name-$stub" panel "tests/panel/$name.c" "tests/self/$stub.c"
        fi || exit 2
    done
    face=-$stub
    fails "table, $stub" table
    fails "ends, $stub" ends
    fails "front, $stub" front
    fails "recorded, $stub" recorded
    [ "$stub" != silent ] || fails "guards, $stub" guards
    for kind in numbers roots decks codes sessions makes; do fails "$kind, $stub" no_difference driver "$kind"; done
done
build_c driver-makes panel tests/self/makes.c || exit 2
fails 'makes, no fault' without_fault makes makes
for fault in numbered-from-0 card-numbers-of-a-byte with-000 without-999 rest-first cards-of-four unmarked-let-in no-minus-zero \
    problem-on-the-last-card-alone first-order-card-not-told byte-past-the-deck drum-changed marks-changed unmarked-judged largest-word \
    000-not-judged any-mark any-number long-drum long-marks first-0 first-1000 first-of-16-bits first-of-32-bits first-marked \
    problem-1000 problem-of-16-bits problem-of-32-bits 12-before-10 22-before-10 22-before-12 room-to-spare length-told-with-22 \
    written-then-refused; do
    fails "makes, $fault" with_fault makes makes "$fault"
done
build_c driver-decks panel tests/self/decks.c || exit 2
while read -r kind faults; do
    fails "$kind, no fault of decks" without_fault decks "$kind"
    for fault in $faults; do fails "$kind, decks: $fault" with_fault decks "$kind" "$fault"; done
done <<END
decks 11-at-the-length 11-behind-the-cards 65536-too-long 13-as-11 x-and-z-let-in 14-at-the-end 15-at-the-kind last-bad-byte \
    sign-for-a-digit digit-for-a-sign 47-for-a-digit 58-for-a-digit space-for-a-digit seven-bits any-card-number any-problem-number \
    16-at-the-kind 16-at-the-last-digit first-order-at-the-kind past-999-at-the-kind past-999-at-the-last-word past-999-let-in \
    last-cell-refused location-000-let-in location-behind-t-not-judged first-order-not-judged second-t-let-in 17-behind-14 17-behind-15 \
    17-behind-16 15-before-14 16-before-14 16-before-15 18-at-0 18-before-a-bad-card empty-deck-let-in later-card
sessions 11-at-load 11-at-run place-0-at-run deck-before-drum state-before-deck 11-behind-the-cards 13-as-11 x-and-z-let-in 14-at-the-end \
    15-at-the-kind 16-at-the-kind past-999-at-the-kind first-order-at-the-kind location-behind-t-not-judged second-t-let-in 18-at-0 \
    18-before-a-bad-card
END
build_c driver-sums panel tests/self/sums.c || exit 2
while read -r kind faults; do
    fails "$kind, no fault of sums" without_fault sums "$kind"
    for fault in $faults; do fails "$kind, sums: $fault" with_fault sums "$kind" "$fault"; done
done <<END
numbers smaller-exponent first-exponent second-exponent zero-result below-zero before-rounding above-two-alone at-most-seven told-with-24 \
    told-with-27 add-alone sub-alone
sessions smaller-exponent zero-result two-stops three-does-not add-alone sub-alone products-too on-run switch-of-1 not-traced \
    not-while-tracing traced-alone plus-orders-alone before-27 told-as-01 02-at-the-end shows-nothing shows-an-operand not-counted \
    location-stays 0-behind-999 not-stored-at-c not-stored-at-000 one-order-more
END
build_c driver-roots panel tests/self/roots.c || exit 2
fails 'roots, no fault' without_fault roots roots
for fault in cut always-up half-way-up ninth-digit-5-down rounded-twice squares-one-less guess-without-its-1 odd-exponents-unscaled \
    one-step-too-few no-last-correction never-one-up never-one-down even-as-odd odd-as-even exponent-rounded-up \
    exponent-one-off-for-odd exponent-00-refused exponent-99-refused first-leading-part-refused last-leading-part-up zero-refused \
    minus-let-in minus-zero-as-26 26-before-24 no-number-let-in not-a-word-let-in; do
    fails "roots, $fault" with_fault roots roots "$fault"
done
build_c driver-moves panel tests/self/moves.c || exit 2
fails 'sessions, no fault of moves' without_fault moves sessions
for fault in from-000 to-000 source-to-1000 destination-to-1000 21-before-20 one-source-cell-asked-for destination-asked-for stores-before-21 \
    numbers-alone from-the-first-on from-the-last-on a-word-short minus-zero-lost not-marked source-given-up first-word-in-000 \
    last-word-in-000 block-by-the-stored-a a-not-traced 23 location-stays not-counted test-of-000 test-of-a-foreign-cell b-asked-for \
    c-asked-for a-for-b a-for-c b-for-a b-for-c c-for-a c-for-b two-digits at-least b-of-a-cell minus-unequal equal-to-c test-23; do
    fails "sessions, moves: $fault" with_fault moves sessions "$fault"
done
build_c driver-changes panel tests/self/changes.c || exit 2
fails 'sessions, no fault of changes' without_fault changes sessions
for fault in wraps-within-the-address carry-lost borrow-lost minus-words-wrap wraps-while-tracing carry-to-the-next-alone not-into-o1 \
    c-not-into-o1 overflow-wrapped below-zero-wrapped into-the-sign through-zero 10000000000-let-in toward-minus sign-lost minus-zero-lost \
    20-at-9999999999 20-at-zero 20-for-any-carry 20-for-o1-changed set-judged 20-before-21 foreign-let-in b-000-let-in numbers-alone \
    own-word-as-done add-for-sub a-for-b b-for-c c-for-a b-of-the-stored-order c-of-the-stored-order told-as-21 counted-with-20 \
    location-moves-with-20 stored-before-20 counter-taken-back card-taken-back; do
    fails "sessions, changes: $fault" with_fault changes sessions "$fault"
done
build_c judged-silent panel tests/self/silent.c || exit 2
fails 'yardstick, silent' no_difference judged sessions
echo "self: $tried checks tried with what does not work, $blind do not see it"
[ "$blind" -eq 0 ]
