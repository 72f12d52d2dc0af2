# When bin/replay builds the program, and what it shows of that: a copy of it in a small repository, with a kit that proves nothing.
# shellcheck shell=sh

repo="$work/a repository" kit=$work/kit

# A repository with three crates that the program is made of, each by the next, and one that it is not. The
# kit's rt says what the true one says, notes each call, and builds a program that prints its input, but where
# its stamp has the sources as they are: then it leaves the program alone, even one that is lost. It obeys a
# file `orders`: `fail`; `wait` for a signal; `talk` for as long as somebody listens; `tire`, which builds a
# program that dies of a signal; `watch`, one that waits for a signal; `break`, a file that can't be started;
# or `forget`, which builds none.
new_repository() {
    rm -rf "$repo" "$kit"
    for folder in bin crates/base/src crates/part/src crates/part/must-fail crates/replay/src crates/other/src; do
        mkdir -p "$repo/$folder"
    done
    mkdir "$kit"
    cp bin/replay "$repo/bin/replay"
    printf '%s\n' '# crates' 'base:' 'part staticlib: base' 'replay: part io # the program' 'other: part' >"$repo/crates.txt"
    for file in base/src/lib.rt part/src/lib.rt part/src/more.rt part/must-fail/lie.edit replay/src/main.rt other/src/lib.rt; do
        echo "// $file" >"$repo/crates/$file"
    done
    cat >"$kit/rt" <<'KIT'
#!/bin/sh
echo "$*, LC_ALL=$LC_ALL, in $(pwd)" >>"$KIT/calls"
orders=$(cat "$KIT/orders")
case $orders in
wait | talk)
    (trap ': >"$KIT/heard"; exit 1' TERM; : >"$KIT/ready"; sleep 30 & wait) &
    # It ends with the test's folder, should a broken script leave it running.
    [ "$orders" = wait ] || while [ -d "$KIT" ]; do
        sleep 0.1 2>/dev/null || sleep 1
        [ ! -f "$KIT/ready" ] || printf '%s\n' 'crate base: modules loaded=1 checked=2' 'logic=proved functions=7'
    done
    wait
    ;;
esac
echo "rt: chose --jobs 2 for base"
for crate in base part; do
    echo "fn $crate::f: proved"
    echo "crate $crate: modules loaded=1 checked=2"
    echo "logic=proved functions=7 a long line of the prover"
done
if [ "$orders" = fail ]; then
    echo "note: src/main.rt:2:7: it is not proved that the index is in range"
    echo "src/main.rt:3:7: error: a need is left"
    echo "crate replay: modules loaded=1 checked=2"
    echo "logic=not-proved"
    echo "rattle build: nothing was built, since only a proved crate is built"
    exit 1
fi
mkdir -p out
sources=$(cat ../../crates.txt ../base/src/* ../part/src/* src/* | cksum)
if [ "$(cat out/replay.stamp 2>/dev/null)" != "$sources" ] && [ "$orders" != forget ]; then
    rm -f out/replay
    case $orders in
    break) echo '#!/nowhere/sh' ;;
    tire) printf '%s\n' '#!/bin/sh' 'kill -9 $$' ;;
    watch)
        printf '%s\n' '#!/bin/sh' 'trap ": >\"\$KIT/heard\"; exit 1" TERM' \
            ': >"$KIT/ready"; sleep 8 & wait; echo late'
        ;;
    *) printf '%s\n' '#!/bin/sh' cat ;;
    esac >out/replay
    chmod +x out/replay
fi
echo "$sources" >out/replay.stamp
echo "crate replay: modules loaded=1 checked=2"
echo "logic=proved functions=2"
echo "rt: running out/replay; to give it other input, run that file yourself"
KIT
    chmod +x "$kit/rt"
    echo good >"$kit/orders"
    : >"$kit/calls"
}

# Replays a line through the copy, which must come back.
replay_once() {
    echo line >"$work/line"
    KIT=$kit PATH=$kit:$PATH status_of "$repo/bin/replay" <"$work/line"
    [ "$status" -eq 0 ] && [ "$(cat "$work/out")" = line ] || shown "a line is lost"
}

calls() { wc -l <"$kit/calls"; }

# Puts a file, or the program, some time apart from the others.
old() { touch -t 200001010000 "$repo/$1"; }

first_use() {
    new_repository
    replay_once || return 1
    [ "$(cat "$kit/calls")" = "run, LC_ALL=C, in $repo/crates/replay" ] || { cat "$kit/calls"; return 1; }
    cat >"$work/wanted" <<'SAID'
replay: proving and building the program, 3 crates: some minutes on first use, and seconds for what has not changed
replay: base proved (s)
replay: part proved (s)
replay: replay proved (s)
SAID
    sed 's/([0-9]* s)/(s)/' "$work/said" | diff - "$work/wanted"
}

not_again() {
    new_repository
    replay_once && replay_once && [ ! -s "$work/said" ] && [ "$(calls)" -eq 1 ] || { echo "built again: $(calls) calls"; return 1; }
    touch "$repo/crates/other/src/lib.rt" "$repo/crates/part/must-fail/lie.edit"
    replay_once && [ "$(calls)" -eq 1 ] || { echo "built again for what it is not made of"; return 1; }
}

# After a change it is built once, and not at every call.
once_after() { # WHAT
    before=$(calls)
    replay_once || return 1
    [ "$(calls)" -eq $((before + 1)) ] || { echo "not built after $1"; return 1; }
    replay_once && [ "$(calls)" -eq $((before + 1)) ] || { echo "built twice after $1"; return 1; }
}

after_a_change() {
    new_repository
    replay_once || return 1
    for file in crates.txt crates/base/src/lib.rt crates/part/src/lib.rt crates/replay/src/main.rt; do
        sleep 0.02 2>/dev/null || sleep 1
        echo "# changed" >>"$repo/$file"
        once_after "a change of $file" || return 1
    done
    sleep 0.02 2>/dev/null || sleep 1
    rm "$repo/crates/part/src/more.rt"
    once_after "the loss of a file" || return 1
    rm "$repo/crates/replay/out/replay"
    once_after "the loss of the program" || return 1
    old crates/replay/out/replay
    once_after "an old program"
}

# With standard error closed nothing can be said, and all else is the same.
closed_error() {
    new_repository
    echo line >"$work/line"
    for number in 1 2; do
        KIT=$kit PATH=$kit:$PATH status_of sh -c 'exec "$1" <"$2" 2>&-' sh "$repo/bin/replay" "$work/line"
        [ "$status" -eq 0 ] && [ "$(cat "$work/out")" = line ] && [ "$(calls)" -eq "$number" ] || shown "use $number, $(calls) calls" || return 1
        sleep 0.02 2>/dev/null || sleep 1
        echo "# changed" >>"$repo/crates/base/src/lib.rt"
    done
}

# The lost program is built again, and what is left of one, though the kit's stamp says that it is built.
lost_program() {
    new_repository
    replay_once && rm "$repo/crates/replay/out/replay" && once_after "the loss of the program" || return 1
    true >"$repo/crates/replay/out/replay"
    once_after "a program that is empty" || return 1
    chmod -x "$repo/crates/replay/out/replay"
    once_after "a program that nobody may start" || return 1
    new_repository
    echo forget >"$kit/orders"
    KIT=$kit PATH=$kit:$PATH status_of "$repo/bin/replay" </dev/null
    refused_with 1 'replay: the program could not be built; crates/replay/out/replay.build has all that was said'
}

# The prover's errors are shown, what it proved is not shown again, and no old program is run.
refused_crate() {
    new_repository
    echo fail >"$kit/orders"
    KIT=$kit PATH=$kit:$PATH status_of "$repo/bin/replay" </dev/null
    refused_with 1 'replay: the program could not be built; crates/replay/out/replay.build has all that was said' || return 1
    grep -qx 'logic=proved functions=7 a long line of the prover' "$repo/crates/replay/out/replay.build" ||
        { echo "the log is not kept"; return 1; }
    grep -qx 'src/main.rt:3:7: error: a need is left' "$work/said" || shown "the error is not shown" || return 1
    grep -qx 'note: src/main.rt:2:7: it is not proved that the index is in range' "$work/said" ||
        shown "what is not proved is not shown" || return 1
    grep -qx 'replay: not proved' "$work/said" || shown "the crate is not named" || return 1
    if grep -q 'a long line of the prover' "$work/said"; then echo "the whole log is shown"; return 1; fi
    echo good >"$kit/orders"
    replay_once && touch "$repo/crates.txt" && old crates/replay/out/replay || return 1
    echo fail >"$kit/orders"
    KIT=$kit PATH=$kit:$PATH status_of "$repo/bin/replay" <"$work/line"
    refused_with 1 'replay: the program could not be built'
}

# The tools that bin/replay needs, and no rt. Each that is missing is told, whether or not there is a program
# to run.
few_tools() {
    new_repository
    rm -rf "$work/tools"
    mkdir "$work/tools"
    for tool in sh timeout awk date dirname find ls mkdir mkfifo mktemp rm touch; do
        ln -s "$(command -v "$tool")" "$work/tools/$tool"
    done
    PATH=$work/tools status_of "$repo/bin/replay" </dev/null
    refused_with 2 "replay: the Rattle kit's rt is not on the PATH" || return 1
    replay_once || return 1
    for missing in awk date dirname find ls mkdir mkfifo mktemp rm touch; do
        mv "$work/tools/$missing" "$work/missing"
        PATH=$work/tools status_of "$repo/bin/replay" </dev/null
        refused_with 2 "replay: $missing is missing" || return 1
        mv "$work/missing" "$work/tools/$missing"
    done
}

# An awk that fails, and one that says nothing: which crates to look at is not known, and no old program is
# run.
failing_awk() {
    new_repository
    replay_once || return 1
    for ends in 3 0; do
        mkdir -p "$work/wrong"
        printf '#!/bin/sh\nexit %s\n' "$ends" >"$work/wrong/awk"
        chmod +x "$work/wrong/awk"
        PATH=$work/wrong:$PATH status_of "$repo/bin/replay" <"$work/line"
        refused_with 1 'replay: crates.txt could not be read, or has no line for the program' || return 1
    done
    # A find that fails says nothing of what is newer: the kit is asked.
    rm "$work/wrong/awk"
    printf '#!/bin/sh\nexit 1\n' >"$work/wrong/find"
    chmod +x "$work/wrong/find"
    (PATH=$work/wrong:$PATH && replay_once) && [ "$(calls)" -eq 2 ] ||
        { echo "a find that fails: $(calls) calls"; return 1; }
    rm "$work/wrong/find"
}

# Where out/ can't be written that is said, and not that a log has the reason. A program that is built is
# run.
read_only() {
    new_repository
    true >"$repo/crates/replay/out"
    KIT=$kit PATH=$kit:$PATH status_of "$repo/bin/replay" </dev/null
    refused_with 1 "replay: the program has to be built, and $repo/crates/replay/out can't be written" || return 1
    if grep -q "all that was said" "$work/said"; then cat "$work/said"; return 1; fi
    [ "$(calls)" -eq 0 ] || { echo "the kit was called"; return 1; }
    [ -n "$as_nobody" ] || return 0
    new_repository
    chmod 711 "$work"
    replay_once || return 1
    KIT=$kit PATH=$kit:$PATH TMPDIR=/tmp status_of $as_nobody "$repo/bin/replay" <"$work/line"
    [ "$status" -eq 0 ] && [ "$(cat "$work/out")" = line ] || shown "a program in a checkout of another" || return 1
    sleep 0.02 2>/dev/null || sleep 1
    echo "# changed" >>"$repo/crates.txt"
    KIT=$kit PATH=$kit:$PATH TMPDIR=/tmp status_of $as_nobody "$repo/bin/replay" <"$work/line"
    refused_with 1 "replay: the program has to be built, and $repo/crates/replay/out can't be written"
}

# A signal that ends the program is the script's status, and told; a program that can't be started is no
# failed read.
dead_program() {
    new_repository
    echo tire >"$kit/orders"
    KIT=$kit PATH=$kit:$PATH status_of "$repo/bin/replay" </dev/null
    refused_with 137 'replay: the program was ended by signal 9' || return 1
    new_repository
    echo break >"$kit/orders"
    KIT=$kit PATH=$kit:$PATH status_of "$repo/bin/replay" </dev/null
    refused_with 1 'replay: the program could not be started' || return 1
    new_repository
    replay_once && mkdir -p "$work/tmp" || return 1
    KIT=$kit PATH=$kit:$PATH TMPDIR=$work/nowhere status_of "$repo/bin/replay" <"$work/line"
    refused_with 3 "replay: no temporary folder can be made in $work/nowhere"
}

# Whether the script ended with this status and left nothing behind.
ended_by() { # SIGNAL STATUS
    [ "$status" -eq "$2" ] || { echo "$1: status $status"; return 1; }
    [ -z "$(ls "$work/tmp")" ] || { echo "$1: left behind: $(ls "$work/tmp")"; return 1; }
}

# A signal to the script alone ends the script, leaves nothing behind, and ends the prover, or the program.
signal() { # ORDER
    for sent in TERM=143 HUP=129 ${hearing:+INT=130}; do
        new_repository
        echo "$1" >"$kit/orders"
        mkdir -p "$work/tmp"
        KIT=$kit PATH=$kit:$PATH TMPDIR=$work/tmp $hearing "$repo/bin/replay" </dev/null >"$work/out" 2>"$work/said" &
        script=$!
        soon test -f "$kit/ready" || { echo "it was not called"; return 1; }
        kill -s "${sent%=*}" "$script"
        wait "$script"
        status=$?
        ended_by "${sent%=*}" "${sent#*=}" || return 1
        # The program has ended before the script; the prover's own children may end a moment later.
        if [ "$1" = watch ]; then
            [ -f "$kit/heard" ] && [ ! -s "$work/out" ] || { echo "$sent: the program goes on"; return 1; }
        elif command -v setsid >/dev/null; then
            soon test -f "$kit/heard" || { echo "$sent: the prover goes on"; return 1; }
        fi
    done
}

# Where nobody listens to standard error any more, the script ends too, and the prover with it.
nobody_listens() {
    new_repository
    echo talk >"$kit/orders"
    mkdir -p "$work/tmp"
    mkfifo "$work/ear"
    KIT=$kit PATH=$kit:$PATH TMPDIR=$work/tmp $hearing "$repo/bin/replay" </dev/null >"$work/out" 2>"$work/ear" &
    script=$!
    head -n 1 <"$work/ear" >"$work/heard"
    wait "$script"
    status=$?
    ended_by PIPE 141 || return 1
    if command -v setsid >/dev/null; then soon test -f "$kit/heard" || { echo "the prover goes on"; return 1; }; fi
}

# Root may write everywhere; nobody may not.
as_nobody=''
[ "$(id -u)" -ne 0 ] || as_nobody='setpriv --reuid=65534 --regid=65534 --clear-groups'
# shellcheck disable=SC2086
[ -z "$as_nobody" ] || $as_nobody true 2>/dev/null || as_nobody=''
tell "the first use of bin/replay" first_use
tell "bin/replay builds nothing without need" not_again
tell "bin/replay builds after a change" after_a_change
tell "bin/replay with standard error closed" closed_error
tell "bin/replay where a crate is refused" refused_crate
tell "bin/replay and a lost program" lost_program
tell "bin/replay without the kit or a tool" few_tools
tell "bin/replay with an awk or a find that fails" failing_awk
tell "bin/replay where out/ can't be written" read_only
tell "bin/replay and a program that dies" dead_program
tell "a signal to bin/replay while it builds" signal wait
tell "a signal to bin/replay while the program runs" signal watch
tell "bin/replay to which nobody listens" nobody_listens
[ -n "$hearing" ] || pass_over "INT to bin/replay" "nothing can have it heard in the background"
