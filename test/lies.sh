# .ci/lies on a planted repository, with a stand-in for `rt` that judges a crate by words in its code:
# `wrong` is refused, `unread` makes a definition that can't be read and `uncoded` no code, `broken` ends
# without a verdict, `mute` says nothing, and `sticky` is refused from then on. As `rt must-fail` it
# judges an edit by the same words in its `new:` line.
# shellcheck shell=sh

liar=$work/liar

# Writes an edit of a planted crate: NAME/KIND/LIE, the text that stands in the place of `fine`, and the first
# line.
plant_edit() { # PLACE NEW [REASON]
    mkdir -p "$liar/crates/${1%/*}"
    printf '# %s\nfile: src/lib.rt\nold: fine\nnew: %s\n' "${3:-It is wrong.}" "$2" >"$liar/crates/$1.edit"
}

plant_liar() {
    rm -rf "$liar"
    mkdir -p "$liar/.ci" "$liar/kit" "$liar/tmp"
    cp .ci/lies .ci/edits.sh "$liar/.ci/"
    printf 'one staticlib:\ntwo: one\n' >"$liar/crates.txt"
    for name in one two; do
        mkdir -p "$liar/crates/$name/src" "$liar/crates/$name/specs" "$liar/crates/$name/proofs" "$liar/crates/$name/out"
        echo fine >"$liar/crates/$name/src/lib.rt"
        echo also >"$liar/crates/$name/specs/Said.antt"
        echo kept >"$liar/crates/$name/out/work"
    done
    plant_edit one/lies/first wrong
    plant_edit one/lies/second wrong
    plant_edit one/harmless/second good
    plant_edit one/must-fail/third wrong
    cat >"$liar/kit/rt" <<'RT'
#!/bin/sh
command=$1
case $command in
must-fail)
    echo "$* LC_ALL=$LC_ALL" >>"$LIAR/calls"
    while [ $# -gt 1 ]; do shift; done
    for edit in "crates/$1/must-fail"/*.edit; do
        told="rt: must-fail $1/${edit##*/}:"
        case $(sed -n 's/^new: //p' "$edit") in
        wait) (trap ': >"$LIAR/heard"; exit 1' TERM; : >"$LIAR/ready"; sleep 30 & wait) ;;
        wrong) echo "$told refused, as it must be: note: src/lib.rt:3:7: it is not proved" ;;
        told) echo "$told refused, as it must be: proofs/Law.antt:3:7: error: \`law\`: it does not follow" ;;
        first) echo "$told refused, as it must be: ./specs/Said.antt:2:5: error: \`x\` was not admitted" ;;
        named) echo "$told refused, as it must be (only because a proof file names what the edit took away): proofs/f/Law.antt:1:1: no" ;;
        unread) echo "$told BAD EDIT: the prover cannot read the edited text: ./specs/Said.antt:2:5: error: \`x\` is not in scope" ;;
        untyped) echo "$told refused, as it must be: ./specs/Said.antt:2:5: error: \`x\`: it has another type" ;;
        uncoded) echo "$told refused, as it must be: src/lib.rt:2:5: error: it is no code" ;;
        limit) echo "$told refused, as it must be (only by a limit of the prover, which gave no verdict): src/lib.rt:1:1" ;;
        broken) echo "$told NOT TRIED: its check was killed" ;;
        mute) ;;
        *) echo "$told NOT REFUSED: the crate is still proved with this edit" ;;
        esac
    done
    exit 1
    ;;
esac
echo "$command ${PWD##*/} $(cat src/lib.rt) $(cat specs/Said.antt) LC_ALL=$LC_ALL" >>"$LIAR/calls"
case $(cat src/lib.rt) in
*wait*) (trap ': >"$LIAR/heard"; exit 1' TERM; : >"$LIAR/ready"; sleep 30 & wait) ;;
*wrong*) echo "note: src/lib.rt:3:7: it is not proved"; echo logic=not-proved; exit 1 ;;
*unread*) echo "./specs/Said.antt:2:5: error: \`x\` is not in scope"; echo logic=not-proved; exit 1 ;;
*uncoded*) echo "src/lib.rt:2:5: error[unknown-name]: it is no code"; exit 1 ;;
*broken*) echo "rattle: out of memory"; exit 2 ;;
*mute*) exit 0 ;;
*half*) echo logic=not-proved; exit 3 ;;
*sticky*) : >"$LIAR/sticky"; echo logic=not-proved; exit 1 ;;
esac
[ ! -f "$LIAR/sticky" ] || { echo logic=not-proved; exit 1; }
echo logic=proved
RT
    chmod +x "$liar/kit/rt"
}

# What stands in the repository, but for what the stand-in writes.
sums_of_liar() {
    (cd "$liar" && find crates crates.txt .ci -type f | sort | xargs cksum)
}

run_liar() { # WORDS...
    sums_of_liar >"$work/before"
    LIAR=$liar PATH=$liar/kit:$PATH TMPDIR=$liar/tmp LC_ALL=C.UTF-8 status_of "$liar/.ci/lies" "$@" </dev/null
    sums_of_liar >"$work/after"
    cmp -s "$work/before" "$work/after" && [ -z "$(ls "$liar/tmp")" ] ||
        shown "the repository is changed, or something is left behind"
}

# Whether the last run ended with this status and this last line.
liar_ended() { # STATUS LINE
    [ "$status" -eq "$1" ] && [ "$(tail -n 1 "$work/out")" = "$2" ] || shown "not so: $1, $2"
}

# What is tried, in which order, and that each edit is in for its own check alone.
lies_refused() {
    plant_liar
    run_liar && liar_ended 0 '5 passed, 0 failed' || return 1
    diff - "$work/out" <<'SAID' || return 1
lies: one before its edits: proved, as it must be
lies: one/harmless/second: proved, as it must be
lies: one after its edits: proved, as it must be
lies: one/lies/first: refused, as it must be (first at src/lib.rt:3:7)
lies: one/lies/second: refused, as it must be (first at src/lib.rt:3:7)
5 passed, 0 failed
SAID
    printf '%s LC_ALL=C\n' 'check one fine also' 'check one good also' 'check one fine also' 'must-fail one' |
        diff - "$liar/calls"
}

# Each of these is not refused as it must be, or not proved.
lies_unnoticed() {
    while IFS='|' read -r edit word count said; do
        plant_liar
        plant_edit "$edit" "$word"
        run_liar && liar_ended 1 "$count" && grep -qF "$said" "$work/out" || { echo "$edit $word"; cat "$work/out"; return 1; }
    done <<'ROWS'
one/lies/first|harmless|4 passed, 1 failed|one/lies/first: NOT REFUSED
one/lies/first|unread|4 passed, 1 failed|one/lies/first: BAD EDIT: what it makes is no definition, or no code: first at specs/Said.antt:2:5
one/lies/first|untyped|4 passed, 1 failed|one/lies/first: BAD EDIT: what it makes is no definition, or no code: first at specs/Said.antt:2:5
one/lies/first|uncoded|4 passed, 1 failed|one/lies/first: BAD EDIT: what it makes is no definition, or no code: first at src/lib.rt:2:5
one/lies/first|limit|4 passed, 1 failed|one/lies/first: NO VERDICT
one/lies/first|broken|4 passed, 1 failed|one/lies/first: NO VERDICT
one/lies/first|mute|4 passed, 1 failed|one/lies/first: NO VERDICT
one/harmless/second|wrong|4 passed, 1 failed|one/harmless/second: NOT PROVED: first at src/lib.rt:3:7
one/harmless/second|unread|4 passed, 1 failed|one/harmless/second: BAD EDIT: what it makes is no definition, or no code: first at specs/Said.antt:2:5
one/harmless/second|uncoded|4 passed, 1 failed|one/harmless/second: BAD EDIT: what it makes is no definition, or no code: first at src/lib.rt:2:5
one/harmless/second|broken|4 passed, 1 failed|one/harmless/second: NO VERDICT
one/harmless/second|mute|4 passed, 1 failed|one/harmless/second: NO VERDICT
one/harmless/second|half|4 passed, 1 failed|one/harmless/second: NO VERDICT
one/harmless/second|sticky|3 passed, 2 failed|one after its edits: NOT PROVED
ROWS
    plant_liar
    echo 'fine, and wrong' >"$liar/crates/one/src/lib.rt"
    run_liar && liar_ended 1 '2 passed, 3 failed' && grep -q 'one before its edits: NOT PROVED' "$work/out"
}

# Each of these is refused at a fact.
lies_at_facts() {
    for word in wrong told first named; do
        plant_liar
        plant_edit one/lies/first "$word"
        run_liar && liar_ended 0 '5 passed, 0 failed' || { echo "$word"; return 1; }
    done
}

# Several crates, and crates by name.
lies_of_some() {
    plant_liar
    plant_edit two/lies/other wrong
    plant_edit two/harmless/other good
    run_liar && liar_ended 0 '9 passed, 0 failed' || return 1
    run_liar two && liar_ended 0 '4 passed, 0 failed' && ! grep -q ' one' "$work/out" || shown "two alone" || return 1
    run_liar three && refused_with 2 'lies: crates.txt lists no crate three' || return 1
    run_liar --nothing && refused_with 2 'lies: there is no --nothing' || return 1
    run_liar --anew && refused_with 2 'lies: --anew wants the names of crates' || return 1
    run_liar --help && [ "$status" -eq 0 ] && grep -q '^  .ci/lies --anew NAME' "$work/out" || shown "no help" || return 1
    plant_liar
    run_liar --anew one && liar_ended 0 '5 passed, 0 failed' && grep -qx 'must-fail --anew one LC_ALL=C' "$liar/calls" ||
        shown "anew"
}

# The form of edits: each of these is told before anything is checked.
lies_form() {
    plant_liar
    run_liar --form && [ "$status" -eq 0 ] && grep -qx 'lies: 1 edits of must-fail/, 2 of lies/, 1 harmless: each has its form, and fits its crate' "$work/out" ||
        shown "the form" || return 1
    while IFS='|' read -r file text why; do
        plant_liar
        mkdir -p "$liar/$(dirname "$file")"
        printf "$text" >"$liar/$file"
        run_liar && liar_ended 1 '0 passed, 1 failed' && grep -qxF "lies: $why" "$work/out" || { echo "$file $text"; cat "$work/out"; return 1; }
        [ ! -f "$liar/calls" ] || { echo "$why: and yet something was checked"; return 1; }
    done <<'ROWS'
crates/one/lies/first.edit|# it is wrong.\nfile: src/lib.rt\nold: fine\nnew: wrong\n|one/lies/first: its first line is not `# ` and a sentence that says what is wrong
crates/one/must-fail/third.edit|# It is wrong\nfile: src/lib.rt\nold: fine\nnew: wrong\n|one/must-fail/third: its first line is not `# ` and a sentence that says what is wrong
crates/one/lies/first.edit|file: src/lib.rt\nold: fine\nnew: wrong\n|one/lies/first: its first line is not `# ` and a sentence that says what is wrong
crates/one/lies/first.edit|# It is wrong.\n# And more.\nfile: src/lib.rt\nold: fine\nnew: wrong\n|one/lies/first: its second line is no `file:` line
crates/one/lies/first.edit|# It is wrong.\nfile: proofs/Law.antt\nold: fine\nnew: wrong\n|one/lies/first: it is aimed at proofs/Law.antt, and a lie is one of src/ or specs/
crates/one/lies/first.edit|# It is wrong.\nfile: src/lib.rt\nold: other\nnew: wrong\n|one/lies/first: an `old:` text is not in lib.rt
crates/one/lies/first.edit|# It is wrong.\nfile: specs/Said.antt\nold: a\nnew: wrong\nold: wrong\nnew: l l\nold: l\nnew: m\n|one/lies/first: an `old:` text is in Said.antt more than once
crates/one/lies/first.edit|# It is wrong.\nfile: src/more.rt\nold: fine\nnew: wrong\n|one/lies/first: there is no src/more.rt
crates/one/lies/first.edit|# It is wrong.\nfile: src/lib.rt\nold: fine\nnew: fine\n|one/lies/first: a `new:` line is what its `old:` line is
crates/one/lies/first.edit|# It is wrong.\nfile: src/lib.rt\nold: fine\n|one/lies/first: an `old:` line has no `new:` line
crates/one/lies/first.edit|# It is wrong.\nfile: src/lib.rt\nolde: fine\nnew: wrong\n|one/lies/first: line 3 is no `file:`, `old:` or `new:` line
crates/one/lies/first.txt|# It is wrong.\n|one/lies/first.txt: its name does not end in .edit, so nothing tries it
crates/one/lies/third.edit|# It is wrong.\nfile: src/lib.rt\nold: fine\nnew: wrong\n|one/lies/third: it stands in must-fail/ too
crates/one/harmless/fourth.edit|# It is right.\nfile: src/lib.rt\nold: fine\nnew: good\n|one/harmless/fourth: it is the twin of no lie: neither lies/ nor must-fail/ has this name
crates/one/harmless/second.edit|# It is right.\nfile: specs/Said.antt\nold: also\nnew: too\n|one/harmless/second: its first change is not at the place of its twin's
crates/two/lies/other.edit|# It is wrong.\nfile: src/lib.rt\nold: fine\nnew: wrong\n|two: it has lies and no harmless edit: put the twin of one into crates/two/harmless/
crates/three/lies/other.edit|# It is wrong.\n|three/lies: crates.txt does not list three
ROWS
}

# What `rt ci` said of must-fail/.
lies_said() {
    plant_liar
    ok='rt: ok; handles allowed: none; must-fail edits: 1 refused; done in this run: 0 of the 4 proofs'
    while IFS='|' read -r wanted said rest; do
        printf '%s\n' 'rt: one proved' "rt: must-fail one/third.edit: $said" "${rest:-$ok}" >"$liar/said"
        run_liar --said "$liar/said" && [ "$status" -eq "$wanted" ] || shown "$said, ${rest:-$ok}" || return 1
    done <<'ROWS'
0|refused, as it must be: note: src/lib.rt:1:1: no proof is found
0|refused, as it must be: proofs/Law.antt:1:1: error: no
0|refused, as it must be
1|refused, as it must be: ./specs/Said.antt:1:1: error: no
1|refused, as it must be (only by a limit of the prover, which gave no verdict): proofs/Law.antt:1:1
1|refused, as it must be (only because a proof file names what the edit took away): proofs/Law.antt:1:1
1|NOT REFUSED: the crate is still proved with this edit
1|BAD EDIT: an 'old:' text is in specs/Said.antt 0 times, and not once
1|NOT TRIED: its check was killed
1|refused, as it must be: note: src/lib.rt:1:1: no|rt: ok; handles allowed: none; must-fail edits: 1 refused, 1 bad; done
1|refused, as it must be: note: src/lib.rt:1:1: no|rt: ok; handles allowed: none; must-fail edits: 0 refused; done
1|refused, as it must be: note: src/lib.rt:1:1: no|rt: ok; handles allowed: none; must-fail edits: 1 refused, 1 of them only by a limit; done
1|refused, as it must be: note: src/lib.rt:1:1: no|rt: FAILED: one
ROWS
    echo "$ok" >"$liar/said"
    run_liar --said "$liar/said" && [ "$status" -eq 1 ] && grep -q 'one/must-fail/third: NO VERDICT' "$work/out" || shown "nothing said" || return 1
    [ ! -f "$liar/calls" ] || { echo "and yet something was checked"; return 1; }
    run_liar --said "$liar/nowhere" && refused_with 2 "lies: there is no $liar/nowhere"
}

# A signal ends the check that runs and what it has started, and nothing is left behind.
lies_signal() { # EDIT
    edit=$1
    # INT is ignored where a shell has started a command beside itself, so that perl sets it back
    for sent in TERM HUP $(! command -v perl >/dev/null || echo INT); do
        plant_liar
        plant_edit "$edit" wait
        set -- "$liar/.ci/lies"
        [ "$sent" != INT ] || set -- perl -e '$SIG{INT} = "DEFAULT"; exec @ARGV' "$@"
        LIAR=$liar PATH=$liar/kit:$PATH TMPDIR=$liar/tmp "$@" </dev/null >"$work/out" 2>&1 &
        script=$!
        soon test -f "$liar/ready" || { echo "$sent: rt was not called"; cat "$work/out"; return 1; }
        kill -s "$sent" "$script"
        wait "$script"
        status=$?
        [ "$status" -gt 128 ] || { echo "$sent: status $status"; return 1; }
        [ -z "$(ls "$liar/tmp")" ] || { echo "$sent: left behind: $(ls "$liar/tmp")"; return 1; }
        if command -v setsid >/dev/null; then soon test -f "$liar/heard" || { echo "$sent: the check goes on"; return 1; }; fi
    done
}

tell "lies: refused, and their twins proved" lies_refused
tell "lies: what is not refused at a fact" lies_unnoticed
tell "lies: what is refused at a fact" lies_at_facts
tell "lies: of some crates" lies_of_some
tell "lies: the form of edits" lies_form
tell "lies: what is said of must-fail/" lies_said
tell "a signal to the check of a twin" lies_signal one/harmless/second
tell "a signal to the lies" lies_signal one/lies/first
