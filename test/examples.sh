# Every example of examples/ and of the documents gives its output, and its text comes back from its bytes.
# shellcheck shell=sh

history=bin/history
example() { # FILE
    "$history" bytes <"$1.txt" >"$work/bytes" || return 1
    "$history" text <"$work/bytes" >"$work/text" || return 1
    "$history" bytes <"$work/text" | cmp - "$work/bytes" || return 1
    crates/replay/out/replay <"$work/bytes" >"$work/lines" || return 1
    diff "$work/lines" "$1.out" | head -n 10
    cmp "$work/lines" "$1.out"
}

each_has_an_output() {
    for text in examples/*.txt; do
        [ -f "${text%.txt}.out" ] || { echo "$text has no output"; return 1; }
        name=${text##*/}
        grep -qF "\`${name%.txt}\`" examples/README.md || { echo "examples/README.md does not name $name"; return 1; }
    done
}

# An output that is not the example's is seen: another line, one more, one fewer, none. So is a text that does
# not come back.
wrong_ones_are_seen() {
    cp examples/inserted_second.txt "$work/planted.txt"
    for change in 's/23:59:60Z/23:59:59Z/' '$p' '$d' d; do
        sed "$change" examples/inserted_second.out >"$work/planted.out"
        if example "$work/planted"; then echo "not seen: $change"; return 1; fi
    done
    cp examples/inserted_second.out "$work/planted.out"
    example "$work/planted" || return 1
    printf '%s\n' '#!/bin/sh' '[ "$1" = bytes ] && exec bin/history bytes' 'echo print' >"$work/forgetful"
    chmod +x "$work/forgetful"
    history=$work/forgetful
    if example "$work/planted"; then echo "not seen: a text that does not come back"; return 1; fi
}

for out in examples/*.out docs/*.out; do
    [ ! -f "$out" ] || tell "${out%.out}" example "${out%.out}"
done
tell "an output and a line of the README for every example" each_has_an_output
tell "wrong examples are seen" wrong_ones_are_seen
