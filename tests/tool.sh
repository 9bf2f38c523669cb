#!/bin/sh
# Checks of the program l1 as it is called: `tests/tool.sh PART`. Each part makes its files in a folder of its own under target/tests
# and says at its end how much it went through.
#   answers   each call of tests/tool/calls: both outputs are those stored in tests/tool/answers
#   rooms     a run whose cards do not fit one room, against cards that are made here
#   foreign   machine files that differ in unmarked cells alone: the same outputs, and these cells as they were
#   making    decks made of machine files, against decks that are made here: they load the same cells on another machine, and the file stays
#             as it was
#   faults    damaged decks that the second program makes, with what it says is due of each: number, place and sentence
#   refused   files and outputs that cannot be written: the machine file stays as it was, and no new file is left beside it
#   modes     a machine file is its owner's alone, when it is made and when it is replaced, whatever the old one's rights are
#   order     the calls of the system in their order: cards, the new file whole and flushed, its new name, the Z card
#   stopped   killed before, in and after each of its calls of the system, and with each of them failing: the machine file is the old
#             or the new one, byte for byte
#   killed    the same, killed after many times
# L1_PROGRAM names another program to be checked, for tests/self.sh, which sees that a check can fail.
set -u
root=$(cd "$(dirname "$0")/.." && pwd -P) || exit 2
. "$root/tests/kit.sh"
part=$1
here=$made/tool-$part${L1_PROGRAM:+-tried}
rm -rf "$here"
mkdir -p "$here" && cd "$here" || exit 2
cp "$root"/tests/tool/decks/* .

# become WORDS..: becomes the program.
become() {
    [ -z "${L1_PROGRAM:-}" ] || exec "$L1_PROGRAM" "$@"
    exec_program "$root/target/bin/l1" "$@"
}

l1() (become "$@")

fail() {
    printf 'tool: %s: %s\n' "$part" "$*"
    exit 1
}

# same WHAT FILE FILE: both are there, with something in them, and have the same bytes.
same() {
    [ -s "$2" ] || fail "$1: $2 is missing or empty"
    same_said "$@"
}

# same_said WHAT FILE FILE: what two calls said, which may be nothing.
same_said() { cmp -s "$2" "$3" || fail "$1: $2 and $3 differ"; }

# made_machine FILE [CELLS]: a new machine file.
made_machine() {
    l1 new "$@" || fail "new $*: ended badly"
    is_machine "$1" || fail "new $*: no machine file"
}

is_machine() { [ -f "$1" ] && [ "$(wc -c <"$1")" -eq 9072 ]; }

# loaded FILE DECK [WORDS..]: a load that does its work: nothing is said, and the location of the machine file is the deck's first order.
loaded() {
    l1 load "$@" >load.out 2>load.err || fail "load $*: ended badly"
    [ ! -s load.out ] && [ ! -s load.err ] || fail "load $*: $(cat load.out load.err)"
    [ "$(location_of "$1")" = "$(first_of "$2")" ] || fail "load $*: nothing is loaded"
}

# The location and the problem number in a machine file; the first order that the first-order card of a deck has.
location_of() { od -An -v -tu8 -j9000 -N8 "$1" | tr -d ' '; }
problem_of() { od -An -v -tu8 -j9040 -N8 "$1" | tr -d ' '; }
first_of() { sed -n 's/.*T\([0-9]\{3\}\).*/\1/p' "$1" | sed 's/^0*//'; }

# A text of 1,000 numbers of up to 20 digits, most of them no words, drawn from a seed.
drawn_cells() {
    awk -v seed="$1" 'BEGIN { srand(seed); for (i = 0; i < 1000; i++) {
        s = 1 + int(rand() * 9); n = 1 + int(rand() * 18); for (k = 0; k < n; k++) s = s int(rand() * 10); print s } }'
}

# ---- answers

# What a call wrote, each line after a mark; one without a line end has a backslash behind it.
shown() { # MARK FILE
    [ -s "$2" ] || return 0
    sed "s/^/$1 /" "$2"
    [ -z "$(tail -c 1 "$2")" ] || echo '\'
}

answers() {
    count=0
    awk 'BEGIN { for (i = 0; i < 1000; i++) printf "%d%s", i * 20000000, i % 8 == 7 ? "\n" : " " }' >cells.text
    head -c 5000 cells.text >short.text
    { cat cells.text; echo 7; } >long.text
    sed 's/^0 /18446744073709551616 /' cells.text >large.text
    sed 's/^0 /18446744073709551615 /' cells.text >largest.text
    sed 's/^0 /-1 /' cells.text >minus.text
    head -c 262145 /dev/zero | tr '\0' ' ' >spaces.text
    { cat cells.text; head -c 262144 /dev/zero | tr '\0' ' '; } | head -c 262144 >padded.text
    head -c 65536 /dev/zero | tr '\0' 7 >full.deck
    head -c 65537 /dev/zero | tr '\0' 7 >over.deck
    head -c 9071 /dev/zero >small.machine
    head -c 9073 /dev/zero >large.machine
    : >empty.machine
    mkdir folder
    ln -s kept.machine link.machine
    while IFS= read -r line; do
        case $line in
        '' | '#'*) continue ;;
        '! '*)
            eval "${line#! }" || fail "$line"
            continue
            ;;
        esac
        count=$((count + 1))
        echo "$ l1${line:+ }$line"
        eval "set -- ${line#-}"
        l1 "$@" >out 2>err
        shown '>' out
        sed 's/new-[A-Za-z0-9]\{6\}/new-XXXXXX/' err >said
        shown 2 said
    done <"$root/tests/tool/calls" >answers
    diff "$root/tests/tool/answers" answers || fail 'other answers than those stored (target/tests/tool-answers/answers)'
    [ "$(ls | grep -c 'new-')" -eq 0 ] || fail 'a new file is left'
    echo "tool: $count calls answered as stored"
}

# ---- rooms

# A deck that fills cells 1 to 999, with PCH of all of them at 101 and a transfer back to it at 102.
punch_deck() {
    awk 'BEGIN { for (a = 1; a < 1000; a += 5) {
        n = a == 996 ? 4 : 5; s = sprintf("%d0001%03d", n, a)
        for (k = a; k < a + n; k++) s = s (k == 101 ? "+0410001999" : k == 102 ? "+0203000101" : sprintf("%s%010d", k % 7 ? "+" : "-", k * 1000003))
        printf "%s007", s }
      printf "T101007" }'
}

# The cards of so many PCH of that deck.
punched() {
    awk -v times="$1" 'BEGIN { for (t = 0; t < times; t++) for (a = 1; a < 1000; a += 5) {
        n = a == 996 ? 4 : 5; s = sprintf("%d%04d%03d", n, ++card % 10000, a)
        for (k = a; k < a + n; k++) s = s (k == 101 ? "+0410001999" : k == 102 ? "+0203000101" : sprintf("%s%010d", k % 7 ? "+" : "-", k * 1000003))
        printf "%s007", s } }'
}

# So many trace cards of the transfer to itself at 101.
traced() {
    awk -v times="$1" 'BEGIN { for (t = 1; t <= times; t++) {
        s = sprintf("X%04d101+0203000101+0203000101", t % 10000); for (k = 0; k < 4; k++) s = s "+0000000000"
        printf "%s007", s } }'
}

rooms() {
    punch_deck >punch.deck
    for times in 1 4 5 9 60; do
        { punched "$times"; printf 'Z02%04d%06d+0000000000' 101 $((times * 2)); } >expected
        l1 session punch.deck "budget=$((times * 2))" >out 2>err || fail 'ended badly'
        same "PCH $times times" expected out
    done
    for times in 1 850 851 852 1703 20000; do
        { traced "$times"; printf 'Z02%04d%06d+0000000000' 101 "$times"; } >expected
        l1 session ever.deck traced "budget=$times" >out 2>err || fail 'ended badly'
        same "traced $times times" expected out
    done
    # the same in two calls on a machine file
    { traced 2000; } >expected
    made_machine two.machine
    loaded two.machine ever.deck traced
    l1 run two.machine ever.deck budget=900 >first && l1 run two.machine ever.deck budget=1100 >second
    { head -c $((900 * 77)) first; head -c $((1100 * 77)) second; } >out
    same 'two calls' expected out
    [ "$(tail -c 24 second)" = 'Z020101001100+0000000000' ] || fail 'the count of the second call'
    # and the listing of cards that fill more than one room
    awk 'BEGIN { for (t = 1; t <= 2000; t++) printf "trace %04d  at 101  problem 007\n  as stored  +0203000101  TR              000 101\n" \
        "  as done    +0203000101  TR              000 101\n  loop box   000 000 000\n  A'"'"'s word   +0000000000\n" \
        "  B'"'"'s word   +0000000000\n  cell 000   +0000000000\n", t }' >expected
    echo 'card 2001, its card number: a digit is due at byte 154001, and the file ends there; the card begins at byte 154000' >>expected
    { cat out; printf 'X'; } >cards
    l1 list cards >listed 2>err || fail 'ended badly'
    same 'a long listing' expected listed
    echo 'tool: 12 runs and a listing through more than one room'
}

# ---- foreign

# dumped SIDE: the cells and the marks of SIDE.machine, one to a line; those of before the call stay beside them.
dumped() {
    is_machine "$1.machine" || fail "$1.machine is no machine file"
    od -An -v -tu8 -w8 -N8000 "$1.machine" >"$1.cells"
    od -An -v -tu1 -w1 -j8000 -N1000 "$1.machine" >"$1.marks"
}

# deck_of SIDE FIRST: the load deck of the cells and marks that were dumped, with the machine's own problem number.
deck_of() {
    paste "$1.marks" "$1.cells" | awk -v first="$2" -v problem="$(problem_of "$1.machine")" '
        function punch() { if (n) printf "%d%04d%03d%s%03d", n, ++card, at, words, problem; n = 0; words = "" }
        NR == 1 { next }
        $1 != 1 { punch(); next }
        !n { at = NR - 1 }
        { words = words sprintf("%s%010.0f", $2 < 10000000000 ? "+" : "-", $2 % 10000000000) }
        ++n == 5 { punch() }
        END { punch(); printf "T%03d%03d", first, problem }'
}

# unseen: of both sides each cell that is unmarked now was so before the call and holds what it held, and there are such cells. Between the
# sides all marks are the same, and all marked cells; the state too; and there are unmarked cells that differ.
unseen() {
    paste one.marks.before one.cells.before one.marks one.cells other.marks.before other.cells.before other.marks other.cells | awk '
        $3 == 0 && ($1 != 0 || $2 "" != $4 "") || $7 == 0 && ($5 != 0 || $6 "" != $8 "") { bad = 1 }
        $3 != $7 || $3 == 1 && $4 "" != $8 "" { bad = 1 }
        $3 == 0 && $4 "" != $8 "" { n++ }
        END { exit bad || NR != 1000 || !n }' && [ "$(tail -c 72 one.machine | od -An -tu8)" = "$(tail -c 72 other.machine | od -An -tu8)" ]
}

# ends_in_z FILE: its last 24 bytes are a Z card. is_refusal FILE: it is the line of a refused call.
ends_in_z() { tail -c 24 "$1" | grep -qE '^Z[0-9]{12}[+-][0-9]{10}$'; }
is_refusal() { grep -qE '^1[0-8] [0-9]+$' "$1"; }

# happened WORDS..: what the call on one.machine, one.before before it, was for has been done, or was refused.
happened() {
    if is_refusal one.out; then
        cmp -s one.before one.machine || return 1
        refusals=$((refusals + 1))
    else
        case $1 in
        load) [ "$(location_of one.machine)" = "$(first_of d.deck)" ] && loads=$((loads + 1)) ;;
        run) ends_in_z one.out && runs=$((runs + 1)) ;;
        cells) [ "$(wc -l <one.out)" -eq "$(grep -c 1 one.marks)" ] && shows=$((shows + 1)) ;;
        make) cmp -s one.before one.machine && deck_of one 101 | cmp -s - one.out && makes=$((makes + 1)) ;;
        esac
    fi
}

# twice WORDS..: the call on the one machine file and on the other, each under the same name.
twice() {
    for side in one other; do
        cp "$side.machine" "$side/m.machine" && cp "$side.machine" "$side.before" || fail "l1 $*: no machine file"
        mv "$side.cells" "$side.cells.before" && mv "$side.marks" "$side.marks.before" || fail "l1 $*: no cells"
        (cd "$side" && l1 "$@") >"$side.out" 2>"$side.err"
        cp "$side/m.machine" "$side.machine" || fail "l1 $*: no machine file is left"
        dumped "$side"
    done
    same_said "l1 $*" one.out other.out
    same_said "l1 $*" one.err other.err
    unseen || fail "l1 $*: an unmarked cell was changed, or the machine files differ in more than unmarked cells"
    happened "$@" || fail "l1 $*: what it is for has not happened"
}

foreign() {
    loads=0 runs=0 shows=0 makes=0 refusals=0 good=0 bad=0
    mkdir one other
    for deck in *.deck "$root"/examples/*.deck; do
        case ${deck##*/} in bad.deck | nofirst.deck) bad=$((bad + 1)) ;; *) good=$((good + 1)) ;; esac
        cp "$deck" d.deck && cp d.deck one/d.deck && cp d.deck other/d.deck || fail "no deck $deck"
        rm -f one.machine other.machine one/m.machine other/m.machine
        drawn_cells 1 >one.text
        drawn_cells 2 >other.text
        for side in one other; do
            made_machine "$side.machine" "$side.text"
            dumped "$side"
        done
        twice run m.machine d.deck
        twice make m.machine first=101
        for mode in '' traced; do
            # shellcheck disable=SC2086
            twice load m.machine d.deck $mode
            twice cells m.machine
            twice make m.machine first=101
            for words in budget=0 budget=1 'budget=2 stop' 'budget=1000 stop' budget=1000 budget=1000; do
                # shellcheck disable=SC2086
                twice run m.machine d.deck $words
            done
            twice cells m.machine
            twice make m.machine first=101
        done
        # of each deck two loads, with six runs, two listings and two decks made behind each, and one deck before them; refused are the run
        # before the first load, and all of a bad deck
        [ "$loads" -eq $((2 * good)) ] && [ "$runs" -eq $((12 * good)) ] && [ "$shows" -eq $((4 * (good + bad))) ] &&
            [ "$makes" -eq $((5 * (good + bad))) ] && [ "$refusals" -eq $((good + bad + 14 * bad)) ] ||
            fail "$good good decks and $bad bad: $loads loads, $runs runs, $shows listings, $makes decks made, $refusals refusals"
    done
    [ "$good" -gt 9 ] && [ "$bad" -eq 2 ] || fail "$good good decks and $bad bad"
    echo "tool: $loads loads, $runs runs, $shows listings, $makes decks made and $refusals refused calls on two machine files each"
}

# ---- making

# untouched COMMAND [WORDS..]: the command leaves m.machine as it was, byte for byte and by its times, and makes no file. Its outputs are in
# out and err.
untouched() {
    cp m.machine old.machine && : >out && : >err || fail 'no machine file'
    stat -c '%i %y %z %a' m.machine >old.times && ls -a >old.files
    "$@" >out 2>err
    same "$*" old.machine m.machine
    stat -c '%i %y %z %a' m.machine | cmp -s - old.times || fail "$*: the machine file is touched"
    ls -a | cmp -s - old.files || fail "$*: a file is made"
}

# made_and_loaded WHAT FIRST: the deck of m.machine is the one that is made here; loaded on a machine with other numbers in its cells it gives
# the same cells, 000 aside, and the deck of that machine is the same.
made_and_loaded() {
    dumped m
    deck_of m "$2" >expected
    untouched l1 make m.machine "first=$2"
    same "the deck of $1" expected out
    [ ! -s err ] || fail "the deck of $1: $(cat err)"
    cp out made.deck
    [ "$(l1 deck made.deck)" = good ] || fail "the deck of $1 is no good one"
    rm -f two.machine && made_machine two.machine two.text
    loaded two.machine made.deck
    for side in m two; do l1 cells "$side.machine" 2>>err | sed '/^  000 /d' >"$side.lines"; done
    same_said "the cells of $1" m.lines two.lines
    [ "$(wc -l <two.lines)" -eq "$(sed 1d m.marks | grep -c 1)" ] || fail "the cells of $1: $(wc -l <two.lines) of them"
    l1 make two.machine "first=$2" >again.deck 2>>err
    same "the deck of $1 made again" made.deck again.deck
    [ ! -s err ] || fail "$1: $(cat err)"
    decks=$((decks + 1))
}

# run_alike WHAT: the made deck, with the cards that d.deck has behind its first-order card behind it, runs as d.deck does.
run_alike() {
    { cat made.deck && sed 's/.*T[0-9]\{6\}//' d.deck; } >job.deck
    for mode in '' traced; do
        # shellcheck disable=SC2086
        for side in job d; do l1 session "$side.deck" budget=1000 $mode >"$side.out" 2>>err; done
        same "$1 $mode" job.out d.out
        ends_in_z job.out && [ ! -s err ] || fail "$1 $mode: no run: $(cat err)"
    done
}

to_full() { l1 "$@" >/dev/full; }
to_none() { l1 "$@" >&-; }

making() {
    decks=0
    drawn_cells 1 >one.text
    drawn_cells 2 >two.text
    made_machine m.machine one.text
    made_and_loaded 'a new machine' 1
    loaded m.machine sum.deck
    # outputs that cannot be written, and a link
    for command in to_full to_none; do
        untouched "$command" make m.machine first=7
        grep -q '^l1: standard output: ' err && [ ! -s out ] || fail "$command: $(cat out err)"
    done
    ln -s m.machine link.machine
    dumped m
    deck_of m 7 >expected
    untouched l1 make link.machine first=7
    same 'a link' expected out
    [ -L link.machine ] || fail 'a link is none any more'
    # a file that may only be read, in a folder in which no file can be made
    free=$(mktemp -d) && mkdir "$free/closed" || exit 2
    cp "${L1_PROGRAM:-$root/target/bin/l1}" "$free/program" && cp m.machine "$free/closed"
    chmod 755 "$free" "$free/program" && chmod 444 "$free/closed/m.machine" && chmod 555 "$free/closed"
    cd "$free/closed" || exit 2
    bound ../program make m.machine first=7 >"$here/out" 2>"$here/err"
    cd "$here" || exit 2
    same 'a file that may only be read' expected out
    [ ! -s err ] && cmp -s m.machine "$free/closed/m.machine" && [ "$(ls -A "$free/closed")" = m.machine ] || fail 'a file that may only be read'
    chmod 755 "$free/closed"
    rm -r "$free" && rm link.machine
    punch_deck >punch.deck
    for deck in *.deck "$root"/examples/*.deck; do
        case ${deck##*/} in bad.deck | nofirst.deck) continue ;; esac
        cp "$deck" d.deck && rm -f m.machine || fail "no deck $deck"
        made_machine m.machine one.text
        loaded m.machine d.deck
        made_and_loaded "$deck, loaded" "$(first_of d.deck)"
        run_alike "$deck, run from the deck made"
        [ "$deck" != punch.deck ] || [ "$(wc -c <made.deck)" -eq 13196 ] || fail 'the longest deck has other than 13196 bytes'
        l1 run m.machine d.deck budget=1000 >run.out 2>run.err && ends_in_z run.out || fail "$deck: no run"
        made_and_loaded "$deck, run" "$(first_of d.deck)"
    done
    [ "$decks" -gt 20 ] || fail "$decks decks"
    echo "tool: $decks decks made and loaded again, and 4 calls on files and outputs of other kinds"
}

# ---- faults

# listed_to_its_end NAME: list ends with the line that is due of the deck, or with no such line where the deck is good.
listed_to_its_end() {
    l1 list "decks/$1.deck" >listed 2>err
    [ -s listed ] || fail "$1.deck: list writes nothing"
    tail -n 1 listed >last
    if [ -s "decks/$1.last" ]; then
        cmp -s "decks/$1.last" last || fail "$1.deck: list ends with '$(cat last)', and it must be '$(cat "decks/$1.last")'"
    else
        ! grep -q ' due ' last || fail "$1.deck: list ends with '$(cat last)', and the deck is good"
    fi
    lists=$((lists + 1))
}

faults() {
    told=0 lists=0
    mkdir decks && "$root/target/second" damaged decks || fail 'no decks'
    for deck in decks/*.deck; do
        name=${deck##*/}
        name=${name%.deck}
        l1 deck "$deck" >out 2>err
        for output in out err; do
            cmp -s "decks/$name.$output" "$output" || fail "$name.deck: '$(cat "$output")', and it must be '$(cat "decks/$name.$output")'"
        done
        told=$((told + 1))
        [ ! -f "decks/$name.last" ] || listed_to_its_end "$name"
    done
    [ "$told" -gt 0 ] && [ "$lists" -gt 0 ] || fail "$told decks, $lists listings"
    echo "tool: $told damaged decks told as they should be, $lists of them listed to the fault"
}

# ---- refused

# stays WHAT: the machine file is as it was, nothing is left beside it, and something was said.
stays() {
    is_machine m.machine || fail "$1: no machine file"
    same "$1" old.machine m.machine
    [ "$(ls | grep -c 'new-')" -eq 0 ] || fail "$1: a new file is left"
    [ -s err ] || fail "$1: nothing was said"
    tried=$((tried + 1))
}

# As a user whom the rights of a folder bind.
bound() (
    if [ "$(id -u)" -eq 0 ]; then drop='setpriv --reuid=65534 --regid=65534 --clear-groups'; fi
    # shellcheck disable=SC2086
    [ -z "${L1_PROGRAM:-}" ] || exec ${drop:-} "$@"
    exec_program "$@"
)

refused() {
    tried=0
    punch_deck >punch.deck
    made_machine m.machine
    loaded m.machine sum.deck
    cp m.machine old.machine
    l1 run m.machine sum.deck >/dev/full 2>err
    stays 'a full disk for the cards'
    l1 run m.machine sum.deck >&- 2>err
    stays 'no standard output'
    for words in 'load m.machine sum.deck traced' 'run m.machine sum.deck'; do
        # shellcheck disable=SC2086
        (trap '' XFSZ && ulimit -f 8 && l1 $words >out 2>err)
        stays "a file that may not be so long: $words"
        grep -q 'not replaced' err || fail 'what was said'
        grep -q Z out && fail 'a Z card all the same'
    done
    loaded m.machine punch.deck
    cp m.machine old.machine
    l1 run m.machine punch.deck budget=30 2>err | head -c 1 >out
    [ -s err ] || echo 'ended by the system' >err
    stays 'an output that nobody reads'
    # a Z card that cannot be written, after cards that could not be missed: the file is the new one, and that is said
    loaded m.machine pause.deck
    cp m.machine old.machine
    l1 run m.machine pause.deck >/dev/full 2>err
    is_machine m.machine || fail 'no machine file'
    cmp -s old.machine m.machine && fail 'the machine file is not replaced though no card was lost'
    grep -q 'replaced, but its Z card' err || fail 'what was said of the Z card'
    # a stale new file of a killed call is in no one's way
    loaded m.machine sum.deck
    : >m.machine.new-AAAAAA && l1 run m.machine sum.deck >out 2>err
    [ "$(cat out)" = '10001202+3000000050007Z000103000003+3000000050' ] || fail 'a stale new file is in the way'
    rm m.machine.new-AAAAAA
    # a folder in which no file can be made
    free=$(mktemp -d) && mkdir "$free/closed" || exit 2
    cp "${L1_PROGRAM:-$root/target/bin/l1}" "$free/program"
    cp m.machine sum.deck "$free/closed"
    chmod 755 "$free" "$free/program" && chmod 666 "$free"/closed/* && chmod 555 "$free/closed"
    for words in 'load m.machine sum.deck' 'run m.machine sum.deck'; do
        # shellcheck disable=SC2086
        (cd "$free/closed" && bound ../program $words) >out 2>err
        cmp -s m.machine "$free/closed/m.machine" || fail "a closed folder: $words: the machine file is another"
        [ "$(ls "$free/closed" | wc -l)" -eq 2 ] || fail "a closed folder: $words: a new file"
        grep -q 'not replaced' err || fail "a closed folder: $words: $(cat err)"
        tried=$((tried + 1))
    done
    (cd "$free/closed" && bound ../program new x.machine) >out 2>err
    [ -s err ] && [ ! -e "$free/closed/x.machine" ] || fail 'a closed folder: new'
    chmod 755 "$free/closed"
    rm -r "$free"
    # new, where the file cannot be written whole
    (trap '' XFSZ && ulimit -f 8 && l1 new y.machine >out 2>err)
    [ -s err ] && [ ! -e y.machine ] || fail 'a new machine file that may not be so long'
    echo "tool: $((tried + 4)) calls that could not write"
}

# ---- modes

# is_private FILE: no one but its owner may read or write it.
is_private() { [ "$(stat -c %a "$1")" = 600 ]; }

modes() {
    umask 0
    made_machine m.machine
    is_private m.machine || fail 'new'
    for words in 'load m.machine sum.deck' 'run m.machine sum.deck'; do
        for mode in 600 644 666; do
            chmod "$mode" m.machine && cp m.machine old.machine
            # shellcheck disable=SC2086
            l1 $words >out 2>err || fail "$words: ended badly"
            [ "$mode" != 600 ] || ! cmp -s old.machine m.machine || fail "$words: changes nothing"
            is_private m.machine || fail "$words: mode $(stat -c %a m.machine) over $mode"
        done
    done
    echo 'tool: 7 machine files for their owner alone'
}

# ---- order

# told WORDS..: the names of the program's calls of the system, in their order, one name for several in a row; a write to an output by the
# output's name.
told() {
    (before=$here/stop.so && export before L1_TOLD=1 && l1 "$@") >out 2>err 8>names 9>count || fail "l1 $*: ended badly"
    [ -s names ] || fail "l1 $*: no call of the system"
    uniq <names | tr '\n' ' '
}

# in_order WORDS.. = NAMES
in_order() {
    words=''
    while [ "$1" != = ]; do
        words="$words $1"
        shift
    done
    shift
    # shellcheck disable=SC2086
    found=$(told $words)
    [ "$found" = "$* " ] || fail "l1$words: $found"
}

order() {
    build_before "$here/stop.so" "$root/tests/tool/stop.c" || fail 'no library'
    in_order new m.machine = open fchmod write fsync close
    in_order load m.machine sum.deck = statx open read close open read close getentropy open write fsync close rename
    in_order run m.machine sum.deck = statx open read close open read close cards getentropy open write fsync close rename cards
    in_order run m.machine sum.deck = statx open read close open read close getentropy open write fsync close rename cards
    in_order cells m.machine = open read close cards
    in_order make m.machine first=101 = open read close cards
    in_order session sum.deck = open read close cards
    echo 'tool: 7 calls, what they ask of the system in its order'
}

# ---- stopped

# whole WHAT: the machine file is the old or the new one.
whole() {
    if cmp -s m.machine old.machine; then
        was=old was_old=$((was_old + 1))
    elif cmp -s m.machine new.machine; then
        was=new was_new=$((was_new + 1))
    else
        fail "$1: the machine file is neither the old nor the new one"
    fi
}

# counted WORDS..: how many calls of the system this call makes; its outputs in new.out and err.
counted() {
    (before=$here/stop.so && l1 "$@") >new.out 2>err 9>count || fail "l1 $*: ended badly"
    count=$(cat count)
    [ "${count:-0}" -gt 4 ] || fail "l1 $*: ${count:-no} calls of the system"
}

# each_moment COMMAND WORDS..: the command with k, the number of a call of the system, and how, for each call that `l1 WORDS` makes.
each_moment() {
    judge=$1 k=0
    shift
    while [ "$k" -lt "$count" ]; do
        k=$((k + 1))
        for how in b a h f; do
            "$judge" "$@"
            stops=$((stops + 1))
        done
    done
}

# stopped_at WORDS..: l1 WORDS, stopped at call k.
stopped_at() { (before=$here/stop.so && export before L1_STOP=$k L1_HOW=$how && l1 "$@") >out 2>err; }

# on_old WORDS..: one moment of a call on the file old.machine as m.machine.
on_old() {
    cp old.machine m.machine
    stopped_at "$@"
    whole "l1 $*: call $k of $count, $how"
    if [ "$how" = f ]; then
        [ "$was" = new ] || [ -s err ] || fail "l1 $*: call $k fails: nothing was said"
        [ "$was" = new ] || ! grep -q Z out || fail "l1 $*: call $k fails: a Z card, and the old file"
        [ "$(ls | grep -c 'new-')" -eq 0 ] || fail "l1 $*: call $k fails: a new file is left"
    fi
    rm -f m.machine.new-*
}

# each_call WORDS..: on the file old.machine as m.machine.
each_call() {
    cp old.machine m.machine
    counted "$@"
    is_machine m.machine && cp m.machine new.machine || fail "l1 $*: no machine file"
    cmp -s old.machine new.machine && fail "l1 $*: changes nothing"
    was_old=0 was_new=0
    each_moment on_old "$@"
    [ "$was_old" -gt 0 ] && [ "$was_new" -gt 0 ] || fail "l1 $*: old $was_old times, new $was_new times"
    # reads and writes of a few bytes each
    cp old.machine m.machine
    (before=$here/stop.so && export before L1_SHORT=100 && l1 "$@") >out 2>err 9>count
    same "l1 $*: short writes" new.machine m.machine
    same_said "l1 $*: short writes" new.out out
    old=$((old + was_old)) new=$((new + was_new))
}

# on_none WORDS..: one moment of a call that makes m.machine: there is none, or a whole one, or, where the call was killed within its one
# write, one that every command refuses. A call that fails leaves none, and says so, or a whole one.
on_none() {
    rm -f m.machine
    stopped_at "$@"
    if [ ! -e m.machine ]; then
        was_old=$((was_old + 1))
        [ "$how" != f ] || [ -s err ] || fail "l1 $*: call $k fails: nothing was said"
    elif cmp -s m.machine new.machine; then
        was_new=$((was_new + 1))
    else
        [ "$how" != f ] && [ "$(l1 cells m.machine)" = '10 0' ] || fail "l1 $*: call $k of $count, $how: a file that is not whole"
        was_short=$((was_short + 1))
    fi
}

# each_new WORDS..: new m.machine, where there is no such file.
each_new() {
    rm -f m.machine
    counted "$@"
    is_machine m.machine && cp m.machine new.machine || fail "l1 $*: no machine file"
    was_old=0 was_new=0 was_short=0
    each_moment on_none "$@"
    [ "$was_old" -gt 0 ] && [ "$was_new" -gt 0 ] && [ "$was_short" -gt 0 ] || fail "l1 $*: none $was_old, whole $was_new, short $was_short times"
}

# on_read WORDS..: one moment of a call that only reads m.machine: that stays, no file is made, and what comes out is a beginning of what would
# have; where that is not all of it after a call that failed, it is said.
on_read() {
    stopped_at "$@"
    cmp -s m.machine old.machine || fail "l1 $*: call $k of $count, $how: the machine file is another"
    [ "$(ls | grep -c 'new-')" -eq 0 ] || fail "l1 $*: call $k of $count, $how: a new file"
    head -c "$(wc -c <out)" new.out | cmp -s - out || fail "l1 $*: call $k of $count, $how: other bytes"
    [ "$how" != f ] || [ -s err ] || cmp -s new.out out || fail "l1 $*: call $k fails: nothing was said"
}

# each_read WORDS..: on the file m.machine.
each_read() {
    cp m.machine old.machine
    counted "$@"
    [ -s new.out ] || fail "l1 $*: nothing comes out"
    each_moment on_read "$@"
    (before=$here/stop.so && export before L1_SHORT=100 && l1 "$@") >out 2>err 9>count
    same "l1 $*: short writes" new.out out
}

stopped() {
    old=0 new=0 stops=0
    build_before "$here/stop.so" "$root/tests/tool/stop.c" || fail 'no library'
    punch_deck >punch.deck
    drawn_cells 3 >cells.text
    each_new new m.machine
    each_new new m.machine cells.text
    made_machine old.machine
    each_call load m.machine sum.deck
    cp new.machine old.machine
    each_call run m.machine sum.deck
    loaded old.machine punch.deck
    each_call run m.machine punch.deck budget=20
    each_read make m.machine first=101
    echo "tool: stopped $stops times, the old file $old times, the new one $new times"
}

# ---- killed

# killed_at DELAY WORDS..: one call, killed after so many seconds; the machine file is then the old or the new one.
killed_at() {
    delay=$1
    shift
    cp old.machine m.machine
    (become "$@" >out 2>err) &
    pid=$!
    sleep "$delay"
    kill -9 "$pid" 2>/dev/null
    wait "$pid" 2>/dev/null
    whole "l1 $*: killed after $delay s"
}

# moments WORDS..: kills at growing delays, from none to past the time that the call took, and on until it was too late a few times.
moments() {
    was_old=0 was_new=0
    cp old.machine m.machine
    began=$(date +%s%N)
    l1 "$@" >out 2>err
    took=$((($(date +%s%N) - began) / 1000))
    is_machine m.machine && cp m.machine new.machine || fail "l1 $*: no machine file"
    cmp -s old.machine new.machine && fail "l1 $*: changes nothing"
    for k in $(awk -v took="$took" 'BEGIN { for (i = 0; i < 400; i++) printf "%.6f\n", took * i * 0.014 / 1000000 }'); do
        killed_at "$k" "$@"
        [ $((was_old + was_new)) -lt 100 ] || [ "$was_new" -lt 5 ] || break
    done
    [ "$was_old" -gt 0 ] && [ "$was_new" -gt 0 ] || fail "l1 $*: old $was_old times, new $was_new times"
    rm -f m.machine.new-*
    old=$((old + was_old)) new=$((new + was_new))
}

killed() {
    old=0 new=0
    made_machine old.machine
    moments load m.machine sum.deck
    cp new.machine old.machine
    moments run m.machine sum.deck
    echo "tool: killed $((old + new)) times, the old file $old times, the new one $new times"
}

case $part in
answers | rooms | foreign | making | faults | refused | modes | order | stopped | killed) "$part" ;;
*)
    echo "tool: $part is no part" >&2
    exit 2
    ;;
esac
