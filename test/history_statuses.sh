# The help and the exit statuses of bin/history: what is promised for bad usage, a failed read, a failed write
# and a failed tool.
# shellcheck shell=sh

bad_usage() {
    for words in '' 'byte' 'bytes text' 'bytes examples/empty.txt' '--helpful' '--help bytes'; do
        # shellcheck disable=SC2086
        status_of bin/history $words </dev/null
        refused_with 2 'usage: bin/history bytes <TEXT >BYTES | bin/history text <BYTES >TEXT' || { echo "words: $words"; return 1; }
    done
}

# It says what it does, its exit statuses and an example.
helps() {
    for word in -h --help; do
        status_of bin/history "$word" <&-
        [ "$status" -eq 0 ] && [ ! -s "$work/said" ] && grep -q '^Histories for the replay' "$work/out" &&
            grep -qF 'bin/history bytes <TEXT >BYTES' "$work/out" && grep -q '^Example' "$work/out" &&
            grep -q '^  summary  ' "$work/out" && grep -q '^Exit status: 0; 1 ' "$work/out" || shown "$word" || return 1
        if grep -q -e '^#' -e 'set -u' "$work/out"; then echo "more than the head of the file"; return 1; fi
    done
    status_of sh -c 'exec bin/history --help >/dev/full'
    refused_with 2 'history: standard output could not be written'
}

# The example of the help is run, as it stands there: ten seconds are shown.
example_of_help() {
    mkdir -p "$work/example"
    ln -sf "$top/bin" "$work/example"
    bin/history --help | sed -n '/^Example/,/^Units/s/^  \([a-z}].*\)/\1/p' | grep -v '^bin/' \
        >"$work/example/day.txt"
    example=$(bin/history --help | sed -n 's/^  \(bin\/history bytes <day.txt [^ ]* && [^ ]* [^ ]*\) .*/\1/p')
    (cd "$work/example" && sh -c "$example") >"$work/lines" || return 1
    [ "$(wc -l <"$work/lines")" -eq 10 ] && grep -q '^1970-01-02T00:00:00Z ' "$work/lines" ||
        { cat "$work/example/day.txt" "$work/lines"; return 1; }
}

failed_write() {
    for word in bytes text; do
        printf 'print' >"$work/in"
        [ "$word" = bytes ] || printf '\003' >"$work/in"
        status_of sh -c 'exec bin/history "$1" <"$2" >/dev/full' sh "$word" "$work/in"
        refused_with 2 'history: standard output could not be written' || { echo "$word to a full device"; return 1; }
        status_of sh -c 'exec bin/history "$1" <"$2" >&-' sh "$word" "$work/in"
        refused_with 2 'history: standard output is closed' || { echo "$word to a closed output"; return 1; }
    done
}

failed_read() {
    for word in bytes text; do
        status_of bin/history "$word" </
        refused_with 1 'history: standard input could not be read to its end' || { echo "$word of a folder"; return 1; }
        status_of bin/history "$word" <&-
        refused_with 1 'history: standard input is closed' || { echo "$word of a closed input"; return 1; }
    done
}

# Bytes, and then a read that fails: nothing of them is written.
failed_late() {
    status_of perl test/failing_input.pl "$(printf 'print\nprint\n')" bin/history bytes
    refused_with 1 'history: standard input could not be read to its end' || return 1
    status_of perl test/failing_input.pl "$(printf '\003\003')" bin/history text
    refused_with 1 'history: standard input could not be read to its end'
}

# With standard error closed nothing can be said, and all else is the same.
closed_error() {
    printf 'print\n' >"$work/text"
    printf '\003' >"$work/bytes"
    status_of sh -c 'exec bin/history bytes <"$1" 2>&-' sh "$work/text"
    [ "$status" -eq 0 ] && cmp "$work/out" "$work/bytes" || shown "bytes" || return 1
    status_of sh -c 'exec bin/history text <"$1" 2>&-' sh "$work/bytes"
    [ "$status" -eq 0 ] && cmp "$work/out" "$work/text" || shown "text" || return 1
    echo nonsense >"$work/text"
    status_of sh -c 'exec bin/history bytes <"$1" 2>&-' sh "$work/text"
    [ "$status" -eq 1 ] && [ ! -s "$work/out" ] || shown "a bad line"
}

missing_tool() {
    for missing in awk od; do
        rm -rf "$work/few"
        mkdir "$work/few"
        for tool in sh timeout awk od; do [ "$tool" = "$missing" ] || ln -s "$(command -v "$tool")" "$work/few/$tool"; done
        PATH=$work/few status_of bin/history bytes </dev/null
        refused_with 2 "history: $missing is missing" || return 1
    done
}

# An awk that fails is a failure, whatever it has written: a status of its own, none of an awk, or a signal.
failing_awk() {
    mkdir -p "$work/wrong"
    printf 'print\n' >"$work/text"
    for ends in 'exit 2' 'exit 3' 'kill -9 $$'; do
        printf '#!/bin/sh\ncat >/dev/null\necho nonsense\n%s\n' "$ends" >"$work/wrong/awk"
        chmod +x "$work/wrong/awk"
        for word in bytes text; do
            PATH=$work/wrong:$PATH status_of bin/history "$word" <"$work/text"
            refused_with 2 'history: awk ended with status' || { echo "$word, $ends"; return 1; }
        done
    done
}

tell "bad usage of bin/history" bad_usage
tell "the help of bin/history" helps
tell "the example in the help of bin/history" example_of_help
tell "bin/history without awk or od" missing_tool
tell "bin/history with an awk that fails" failing_awk
tell_awks "bin/history with standard error closed" closed_error
tell_awks "a failed write of bin/history" failed_write
tell_awks "a failed read of bin/history" failed_read
if perl test/failing_input.pl x true 2>/dev/null; then
    tell_awks "a read of bin/history that fails late" failed_late
else
    pass_over "a read of bin/history that fails late" "there is no perl, or no terminal to be had"
fi
