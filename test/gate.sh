# What .ci/run makes of its parts: a copy of it, with parts that only say something. The stand-ins for `rt`, .ci/contracts, .ci/reference,
# .ci/promises, .ci/lies and test/run obey files of their names in $gate/orders: lines to say, and the exit status.
# shellcheck shell=sh

gate=$work/gate

new_gate() {
    rm -rf "$gate"
    mkdir -p "$gate/.ci" "$gate/test" "$gate/kit" "$gate/orders" "$gate/tmp" "$gate/crates/heukelvos" "$gate/crates/heukelvos_rig"
    cp .ci/run "$gate/.ci/run"
    cat >"$gate/kit/part" <<'PART'
#!/bin/sh
name=${0##*/} words=''
case $0 in
*/rt) name=rt-$1 words=" $* in ${PWD##*/}," ;;
*/lies) name=lies${1:-} ;;
*test/run) name=test ;;
esac
[ "$name" != lies--said ] || cp "$2" "$GATE/said"
echo "$name$words LC_ALL=$LC_ALL" >>"$GATE/calls"
. "$GATE/orders/$name"
PART
    chmod +x "$gate/kit/part"
    for link in kit/rt .ci/contracts .ci/reference .ci/promises .ci/lies test/run; do ln -s "$gate/kit/part" "$gate/$link"; done
    echo 'echo "contracts: fine"' >"$gate/orders/contracts"
    echo 'echo "reference: fine"' >"$gate/orders/reference"
    echo 'echo "promises: fine"' >"$gate/orders/promises"
    echo 'echo "lies: of the right form"' >"$gate/orders/lies--form"
    echo 'echo "lies: at facts"' >"$gate/orders/lies--said"
    echo 'echo "lies: refused"; echo "3 passed, 0 failed"' >"$gate/orders/lies"
    echo 'echo "rt: ok"; echo "7 passed, 0 failed"' >"$gate/orders/rt-ci"
    echo 'exit 0' >"$gate/orders/rt-all"
    echo 'echo "rt: the library"' >"$gate/orders/rt-lib"
    echo 'echo "a test: as it should be"; echo "5 passed, 0 failed"' >"$gate/orders/test"
}

run_gate() {
    GATE=$gate PATH=$gate/kit:$PATH TMPDIR=$gate/tmp LC_ALL=C.UTF-8 status_of "$gate/.ci/run" </dev/null
}

# Whether the gate ended with this status and this last line, and left nothing behind.
ended_with() { # STATUS LINE
    [ "$status" -eq "$1" ] && [ "$(tail -n 1 "$work/out")" = "$2" ] && [ -z "$(ls "$gate/tmp")" ] ||
        shown "not so: $1, $2, with nothing left behind ($(ls "$gate/tmp"))"
}

all_well() {
    new_gate
    run_gate
    ended_with 0 '23 passed, 0 failed' || return 1
    cat >"$work/wanted" <<'SAID'
contracts: fine
a contract for every public function: as it should be
reference: fine
a line of the reference for every public function: as it should be
promises: fine
every promise by its name: as it should be
lies: of the right form
the form of every wrong program: as it should be
rt: ok
lies: at facts
every lie of must-fail/ refused at a fact: as it should be
every crate checked: as it should be
rt: the library
the library for C: as it should be
rt: the library
the library for C of a rig: as it should be
lies: refused
a test: as it should be
23 passed, 0 failed
SAID
    diff "$work/wanted" "$work/out" || return 1
    printf '%s LC_ALL=C\n' contracts reference promises lies--form 'rt-ci ci in gate,' lies--said \
        'rt-all all check --jobs N in gate,' 'rt-lib lib in heukelvos,' 'rt-lib lib in heukelvos_rig,' lies test >"$work/wanted"
    sed 's/--jobs [1-4] /--jobs N /' "$gate/calls" | diff "$work/wanted" - || return 1
    printf '%s\n' 'rt: ok' '7 passed, 0 failed' | diff - "$gate/said"
}

# Each part that fails is counted, and one that fails without a word too.
one_fails() {
    for part in contracts reference promises lies--form; do
        new_gate
        echo 'echo "what is wrong"; exit 1' >"$gate/orders/$part"
        run_gate
        ended_with 1 '3 passed, 1 failed' && grep -qx 'what is wrong' "$work/out" || { echo "$part"; return 1; }
        if grep -q -e rt-ci -e test "$gate/calls"; then echo "$part: the rest was tried"; return 1; fi
    done
    for row in \
        'rt-ci=echo "6 passed, 2 failed"; exit 1=17 passed, 2 failed' \
        'test=echo "4 passed, 1 failed"; exit 1=22 passed, 1 failed' \
        'rt-ci=echo "6 passed, 0 failed"; exit 2=17 passed, 1 failed' \
        'test=echo "5 passed, 0 failed"; exit 1=23 passed, 1 failed' \
        'rt-lib=exit 1=21 passed, 2 failed' \
        'rt-all=exit 1=22 passed, 1 failed' \
        'rt-ci=exit 0=11 passed, 1 failed' \
        'lies--said=exit 1=22 passed, 1 failed' \
        'lies=echo "2 passed, 1 failed"; exit 1=22 passed, 1 failed' \
        'lies=exit 0=20 passed, 1 failed' \
        'test=kill -9 $$=18 passed, 1 failed'; do
        part=${row%%=*}
        rest=${row#*=}
        new_gate
        echo "${rest%=*}" >"$gate/orders/$part"
        run_gate
        ended_with 1 "${rest##*=}" || { echo "$row"; return 1; }
        case $part in rt-ci) ! grep -q -e lies--said -e 'lies LC_ALL' "$gate/calls" || { echo "$row: the lies were tried"; return 1; } ;; esac
    done
}

# A line is seen while the part that said it is still at work: it waits for that.
as_they_come() {
    new_gate
    cat >"$gate/orders/rt-ci" <<'MOOD'
echo "rt: first"
tries=0
until [ -f "$GATE/seen" ] || [ "$tries" -gt 50 ]; do tries=$((tries + 1)); sleep 0.1 2>/dev/null || sleep 1; done
[ -f "$GATE/seen" ] && echo "rt: it was seen"
echo "7 passed, 0 failed"
MOOD
    GATE=$gate PATH=$gate/kit:$PATH TMPDIR=$gate/tmp timeout 60 "$gate/.ci/run" </dev/null 2>&1 | while IFS= read -r line; do
        printf '%s\n' "$line"
        [ "$line" != 'rt: first' ] || : >"$gate/seen"
    done >"$work/out"
    grep -qx 'rt: it was seen' "$work/out" || { cat "$work/out"; return 1; }
}

# A signal ends the gate, what it has started and what that has started, and nothing is left behind.
signal() {
    for sent in TERM=143 HUP=129 ${hearing:+INT=130}; do
        new_gate
        cat >"$gate/orders/rt-ci" <<'MOOD'
echo "rt: at work"
(trap ': >"$GATE/heard"; exit 1' TERM; : >"$GATE/ready"; sleep 30 & wait) &
wait
MOOD
        GATE=$gate PATH=$gate/kit:$PATH TMPDIR=$gate/tmp $hearing "$gate/.ci/run" </dev/null >"$work/out" 2>&1 &
        script=$!
        soon test -f "$gate/ready" || { echo "rt ci was not called"; return 1; }
        kill -s "${sent%=*}" "$script"
        wait "$script"
        status=$?
        [ "$status" -eq "${sent#*=}" ] || { echo "$sent: status $status"; return 1; }
        [ -z "$(ls "$gate/tmp")" ] || { echo "$sent: left behind: $(ls "$gate/tmp")"; return 1; }
        if command -v setsid >/dev/null; then soon test -f "$gate/heard" || { echo "$sent: the proofs go on"; return 1; }; fi
    done
}

# Where nobody reads its lines any more the gate ends, with what it has started, and leaves nothing behind.
nobody_reads() {
    new_gate
    cat >"$gate/orders/rt-ci" <<'MOOD'
(trap ': >"$GATE/heard"; exit 1' TERM; : >"$GATE/ready"; sleep 30 & wait) &
while [ -d "$GATE" ] && { sleep 0.1 2>/dev/null || sleep 1; }; do [ ! -f "$GATE/ready" ] || echo "rt: at work"; done
MOOD
    mkfifo "$gate/ear"
    GATE=$gate PATH=$gate/kit:$PATH TMPDIR=$gate/tmp $hearing "$gate/.ci/run" </dev/null >"$gate/ear" 2>&1 &
    script=$!
    grep -q -m 1 'rt: at work' <"$gate/ear"
    wait "$script"
    status=$?
    [ "$status" -eq 141 ] || { echo "status $status"; return 1; }
    [ -z "$(ls "$gate/tmp")" ] || { echo "left behind: $(ls "$gate/tmp")"; return 1; }
    if command -v setsid >/dev/null; then soon test -f "$gate/heard" || { echo "the proofs go on"; return 1; }; fi
}

tell "the gate where all is well" all_well
tell "the gate where a part fails" one_fails
tell "the gate's lines as they come" as_they_come
tell "a signal to the gate" signal
tell "the gate whose lines nobody reads" nobody_reads
