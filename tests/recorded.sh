# The checks of the recorded sessions, tests/sessions/list, and of the decks that are kept of machines, tests/sessions/prepared. Read with `.`
# behind tests/kit.sh, at the top of the repository; they use the program, the front panel that build_c made, and target/second.

# listings: each deck is what the keypunch makes of the listing beside it, and each kept output is on the list.
listings() {
    count=0 wrong=0
    for listing in examples/*.txt tests/sessions/*.txt bench/decks/*.txt; do
        count=$((count + 1))
        "${L1_KEYPUNCH:-examples/keypunch}" "$listing" | cmp - "${listing%.txt}.deck" || wrong=$((wrong + 1))
    done
    for file in examples/*.deck tests/sessions/*.deck; do
        [ -f "${file%.deck}.txt" ] || { echo "$file has no listing" && wrong=$((wrong + 1)); }
    done
    for file in examples/*.out tests/sessions/*.out; do
        grep -q "^$file " tests/sessions/list || { echo "$file is not on the list" && wrong=$((wrong + 1)); }
    done
    echo "listings: $count decks, $wrong wrong"
    [ "$count" -gt 0 ] && [ "$wrong" -eq 0 ]
}

# recorded: each session on the list, by the program, by the front panel and by the second program; all must write the bytes that are kept.
recorded() {
    count=0 differences=0
    while read -r kept deck words; do
        case $kept in '' | '#'*) continue ;; esac
        count=$((count + 1))
        # shellcheck disable=SC2086
        same program session "$deck" $words || differences=$((differences + 1))
        # shellcheck disable=SC2086
        same run_c "front${face:-}" session "$deck" $words || differences=$((differences + 1))
        # shellcheck disable=SC2086
        same target/second session "$deck" $words || differences=$((differences + 1))
    done <tests/sessions/list
    echo "recorded: $count sessions, $differences differences"
    [ "$count" -gt 0 ] && [ "$differences" -eq 0 ]
}

# prepared: each machine of tests/sessions/prepared, made new, loaded and run by the program; the deck made of it is the one that is kept.
prepared() {
    count=0 differences=0
    while read -r kept deck words; do
        case $kept in '' | '#'*) continue ;; esac
        count=$((count + 1)) machine=$made/prepared.machine
        rm -f "$machine"
        program new "$machine" && program load "$machine" "$deck" && program run "$machine" "$deck" >"$made/prepared.out"
        # shellcheck disable=SC2086
        same program make "$machine" $words || differences=$((differences + 1))
    done <tests/sessions/prepared
    echo "prepared: $count machines, $differences differences"
    [ "$count" -gt 0 ] && [ "$differences" -eq 0 ]
}

program() (
    [ -z "${L1_PROGRAM:-}" ] || exec "$L1_PROGRAM" "$@"
    exec_program target/bin/l1 "$@"
)

# same COMMAND [WORDS..]: whether a command does well and writes the bytes of the file $kept.
same() {
    "$@" >"$made/session.out" </dev/null && cmp "$kept" "$made/session.out" && return
    echo "difference: $kept: $*"
    return 1
}

# front: the dialogue of tests/panel/front.in gives the answers that are kept beside it. One of its decks is too long to be kept.
front() {
    head -c 70000 /dev/zero | tr '\0' 1 >"$made/long.deck"
    run_c "front${face:-}" <tests/panel/front.in >"$made/front.out" || return 1
    cmp tests/panel/front.out "$made/front.out" && echo "front: $(grep -c . tests/panel/front.in) lines, answered as kept"
}
