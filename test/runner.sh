# What test/run makes of its tests: a copy of it, with tests that only pass or fail.
# shellcheck shell=sh

own=$work/runner

# A repository with three files of tests: of two, one and one.
new_runner() {
    rm -rf "$own"
    mkdir -p "$own/.ci" "$own/test" "$own/crates/replay/out" "$own/tmp"
    cp test/run "$own/test/run"
    cp crates/replay/out/replay "$own/crates/replay/out/replay"
    printf '%s\n' 'alpha 2' 'beta 1' 'gamma 1' >"$own/.ci/tests"
    printf '%s\n' 'tell "alpha, good" true' 'tell "alpha, also good" true' >"$own/test/alpha.sh"
    echo 'tell "beta, good" true' >"$own/test/beta.sh"
    echo 'pass_over "gamma" "it is not here"' >"$own/test/gamma.sh"
}

# Whether it ended with this status, this line and this last line, and left nothing behind.
ends_with() { # STATUS LINE LAST [WORD...]
    wanted=$1 line=$2 last=$3
    shift 3
    TMPDIR=$own/tmp status_of "$own/test/run" "$@" </dev/null
    [ "$status" -eq "$wanted" ] && grep -qxF -- "$line" "$work/out" && [ "$(tail -n 1 "$work/out")" = "$last" ] &&
        [ -z "$(ls "$own/tmp")" ] || shown "not so: $wanted, $line, $last, with nothing left behind ($(ls "$own/tmp"))"
}

counted_so() {
    new_runner
    ends_with 0 'gamma: passed over, it is not here' '3 passed, 0 failed' || return 1
    ends_with 0 'alpha, good: as it should be' '2 passed, 0 failed' alpha || return 1
    (cd "$own/test" && PATH=.:$PATH && ends_with 0 'beta, good: as it should be' '1 passed, 0 failed' beta) || return 1
    echo 'tell "beta, bad" sh -c "echo why; exit 3"' >>"$own/test/beta.sh"
    ends_with 1 'beta, bad: NOT as it should be' '3 passed, 1 failed' && grep -qx '    why' "$work/out" || return 1
    ends_with 1 'beta, bad: NOT as it should be' '1 passed, 1 failed' beta || return 1
    ends_with 1 'test/run: there is no test/delta.sh' '0 passed, 1 failed' delta
}

# What is owed: every file of the list, none beside it, and no fewer tests than it says.
owed_so() {
    new_runner
    rm "$own/test/beta.sh"
    ends_with 1 'test/run: there is no test/beta.sh' '2 passed, 1 failed' || return 1
    new_runner
    true >"$own/test/beta.sh"
    ends_with 1 'test/run: test/beta.sh has told 0 tests, and owes 1' '2 passed, 1 failed' || return 1
    new_runner
    echo 'tell "alpha, good" true' >"$own/test/alpha.sh"
    ends_with 1 'test/run: test/alpha.sh has told 1 tests, and owes 2' '2 passed, 1 failed' || return 1
    new_runner
    echo 'alpha 2' >"$own/.ci/tests"
    ends_with 1 'test/run: test/gamma.sh has no line in .ci/tests' '2 passed, 2 failed' || return 1
    ends_with 1 'test/run: test/beta.sh has no line in .ci/tests' '0 passed, 1 failed' beta || return 1
    rm "$own/.ci/tests"
    ends_with 1 'test/run: there is no list of the tests, .ci/tests' '0 passed, 1 failed'
}

only_the_first() {
    new_runner
    sed -i.old 's/true$/false/' "$own/test/alpha.sh"
    ends_with 1 'alpha, good: NOT as it should be' '0 passed, 1 failed' --first || return 1
    ends_with 1 'alpha, also good: NOT as it should be' '1 passed, 2 failed'
}

# A version of test/run that does not count what fails, in one way or another, says so of itself.
does_not_count() { # OLD NEW
    new_runner
    sed "s/$1/$2/" test/run >"$own/test/run"
    if cmp -s test/run "$own/test/run"; then echo "this does not stand in test/run: $1"; return 1; fi
    ends_with 1 'test/run: it does not count what fails' '0 passed, 1 failed' || { echo "$1: $2"; return 1; }
}

notices_itself() {
    # shellcheck disable=SC2016
    does_not_count '^    if ("$@") >.*; then' '    if true; then' &&
        does_not_count 'failed=$((failed + 1))' 'true' &&
        does_not_count '$failed failed"$' '0 failed"' &&
        does_not_count '^    \[ "$failed" -eq 0 \]$' '    true' &&
        does_not_count 'passed=$((passed + 1))' 'true'
}

# A list of four edits: one that is noticed, one that is harmless, one whose text is not there, one whose text
# is there twice. The copy that is not broken passes.
planted_edits() {
    cat >"$work/edits_planted" <<'EDITS'
= arguments are taken
in bin/replay, noticed by replay_script
- *) usage "it takes no argument: a history comes on standard input" ;;
+ *) ;;

= nothing is wrong
in bin/replay, noticed by replay_script
- set -u
+ set -u # as it was

= no such text
in bin/replay, noticed by replay_script
- no such text
+

= a text that stands there twice
in bin/replay, noticed by replay_script
- work
+ play
EDITS
    EDITS=$work/edits_planted status_of_work 60 test/run broken
    printf '%s\n' 'a copy that is not broken: as it should be' \
        'noticed: arguments are taken (replay_script): as it should be' \
        'noticed: nothing is wrong (replay_script): NOT as it should be' '    test/run replay_script passes' \
        'noticed: no such text (replay_script): NOT as it should be' \
        "    the edit does not fit bin/replay: 'no such text' does not stand there once" \
        'noticed: a text that stands there twice (replay_script): NOT as it should be' \
        "    the edit does not fit bin/replay: 'work' does not stand there once" '2 passed, 3 failed' | diff - "$work/out"
}

# A copy whose tests fail without an edit is told.
broken_copy() {
    rm -rf "$own"
    mkdir -p "$own"
    # shellcheck disable=SC2046 # the names of files have no spaces
    cp -R bin .ci test examples docs crates.txt c bench README.md CONTRIBUTING.md $(ls -d LICENSE 2>/dev/null) "$own"
    copy_crates "$own"
    for name in replay cross_check; do
        mkdir -p "$own/crates/$name/out"
        [ ! -f "crates/$name/out/$name" ] || cp "crates/$name/out/$name" "$own/crates/$name/out"
    done
    echo 'tell "it is broken" false' >>"$own/test/replay_script.sh"
    printf '%s\n' '= all is wrong' 'in bin/replay, noticed by replay_script' '- set -u' '+ exit 1' >"$work/edits_planted"
    EDITS=$work/edits_planted status_of_work 60 "$own/test/run" broken
    grep -qx 'a copy that is not broken: NOT as it should be' "$work/out" || shown "a broken copy"
}

tell "test/run counts" counted_so
tell "test/run holds its files to the list" owed_so
tell "test/run that ends with the first failure" only_the_first
tell "a test/run that counts no failure" notices_itself
tell "broken versions that are not noticed" planted_edits
tell "a broken copy" broken_copy
