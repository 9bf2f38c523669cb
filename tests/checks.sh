# Checks that tests/all counts, beside those of tests/recorded.sh and tests/tool.sh. Read with `.` behind tests/kit.sh, at the top of the
# repository. Where face is set, the C programs are those with that ending: tests/self.sh tries the checks with libraries that do nothing.

# expected: the crates, and how many wrong programs each has, are those of tests/expected (L1_EXPECTED names another list), so that none can
# go unseen.
expected() {
    list=${L1_EXPECTED:-tests/expected}
    sed -n 's/^\([a-z0-9_]*\)\( staticlib\)\{0,1\}:.*/\1/p' crates.txt | while read -r name; do
        echo "$name $(find "crates/$name/must-fail" -name '*.edit' 2>/dev/null | grep -c .)"
    done | diff "$list" - && awk '{ n += $2 } END { print "expected: " NR " crates, " n " wrong programs" }' "$list"
}

# gate: `rt ci`, as it stands, over the whole checkout: each crate of tests/expected is proved, with as many wrong programs refused as stand
# there, none of them bad, and none is lost. Sets passed and failed: crates proved and wrong programs refused, and what was not. What rt says
# is kept outside of the checkout until it is read.
gate() {
    scratch=$(mktemp -d) || exit 2
    {
        rt ci 2>&1
        echo $? >"$scratch/status"
    } | tee "$scratch/said"
    status=$(cat "$scratch/status")
    counts=$(sed -n '$s/^\([0-9]*\) passed, \([0-9]*\) failed$/\1 \2/p' "$scratch/said")
    bad=$(sed -n 's/^rt: ok; .*; must-fail edits: [^;]*, \([0-9]*\) bad.*/\1/p' "$scratch/said")
    of_gate <"$scratch/said" >"$scratch/counted"
    diff tests/expected "$scratch/counted" >"$scratch/lost"
    lacks=$?
    sed -n 's/^< /gate: expected: /p; s/^> /gate: found: /p' "$scratch/lost"
    grep -q '^rt: ok; ' "$scratch/said" || lacks=1
    [ "${bad:-0}" -eq 0 ] || echo "gate: $bad bad wrong programs"
    named=$(grep -c '^rt: must-fail .*: refused, as it must be (only because a proof file names ' "$scratch/said")
    [ "$named" -eq 0 ] || {
        echo "gate: $named wrong programs refused only for a name that a proof file cites"
        lacks=1
    }
    weak=$(($(grep -c '^rt: must-fail .*: refused, as it must be (only ' "$scratch/said") - named))
    [ "$weak" -eq 0 ] || echo "gate: $weak wrong programs refused only by a limit of the prover"
    rm -r "$scratch"
    passed=${counts% *} failed=${counts#* }
    passed=${passed:-0} failed=$((${failed:-1} + ${bad:-0}))
    [ "$failed" -eq 0 ] && [ "$status" -eq 0 ] && [ "$lacks" -eq 0 ] &&
        [ "$passed" -eq "$(awk '{ n += 1 + $2 } END { print n + 0 }' tests/expected)" ] && return
    [ "$failed" -gt 0 ] || failed=1
    return 1
}

# of_gate: of what rt ci says, the crates that are proved, in the order of tests/expected, each with the number of its wrong programs that are
# refused, as they stand there; then any other crate.
of_gate() {
    awk '
        FNR == NR { order[++crates] = $1; next }
        /^rt: [a-z0-9_]+ (proved|is kept: .*)$/ { proved[$2] = 1 }
        /^rt: must-fail [a-z0-9_]+\/[^:]*\.edit: refused, / { split($3, at, "/"); if (!seen[$3]++) refused[at[1]]++ }
        END {
            for (i = 1; i <= crates; i++) if (order[i] in proved) { print order[i], refused[order[i]] + 0; delete proved[order[i]] }
            for (name in proved) print name, refused[name] + 0
        }' tests/expected -
}

# counted PROGRAM WHAT: a program that judges by itself ends by its own count, which says that it was gone through.
counted() {
    run_c "$1${face:-}" >"$made/$1.out"
    cat "$made/$1.out"
    tail -n 1 "$made/$1.out" | grep -q "^$2, 0 wrong\$"
}

table() { counted cases 'panel: [1-9][0-9]* cases'; }

# ends: the roots at both ends of the leading parts, and those of each exponent.
ends() { counted roots 'roots: [1-9][0-9]* roots'; }

# compare DRIVER KIND COUNT: the judge's verdict counts, and a case or an answer that is missing is a difference to it.
compare() {
    target/second "$2" "$seed" "$3" /dev/stdout | run_c "$1${face:-}" "$2" | target/second "judge-$2" "$seed" "$3" /dev/stdin
}

# guards: the driver tells each touch of what it has put around the buffers that it lends.
guards() { run_c "driver${face:-}" guards | grep '^guards: '; }

# second_tests: the tests that the second program has of itself, and that there are some.
second_tests() {
    "${L1_SECOND_TESTS:-target/second-tests}" >"$made/second-tests.out" || { cat "$made/second-tests.out" && return 1; }
    grep '^test result: ok. [1-9][0-9]* passed; 0 failed' "$made/second-tests.out"
}

# second_self: the second program's trial of its own judges, and that it says so.
second_self() {
    "${L1_SECOND:-target/second}" self 1000 "$seed" >"$made/second-self.out" 2>&1 || { cat "$made/second-self.out" && return 1; }
    grep '^self: all as it must be' "$made/second-self.out"
}

# door: ./l1 itself, from another folder and by a link.
door() {
    rm -rf "$made/door" && mkdir -p "$made/door" && ln -s "${L1_DOOR:-$(pwd -P)/l1}" "$made/door/l1" || return 1
    for way in "${L1_DOOR:-$(pwd -P)/l1}" ./l1; do
        (cd "$made/door" && "$way" session "$OLDPWD/examples/sum.deck") >"$made/door.out" && cmp examples/sum.out "$made/door.out" || return 1
    done
    echo 'door: ./l1 runs from another folder and by a link'
}
