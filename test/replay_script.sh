# How bin/replay is called: with no argument or for help, from anywhere, through symbolic links.
# shellcheck shell=sh

no_arguments() {
    printf '\003' >"$work/bytes"
    for words in 'x' '-' '--help --help' '--helpful' "$work/bytes" 'a b'; do
        # shellcheck disable=SC2086
        status_of bin/replay $words <"$work/bytes"
        refused_with 2 'usage: bin/replay <HISTORY >LINES' || { echo "words: $words"; return 1; }
    done
    status_of bin/replay '' <"$work/bytes"
    refused_with 2 'usage: bin/replay <HISTORY >LINES'
}

# It says what it does, its exit statuses and an example; where it can't be read, that too.
helps() {
    for word in -h --help; do
        status_of bin/replay "$word" <&-
        [ "$status" -eq 0 ] && [ ! -s "$work/said" ] && grep -q '^Replays a history' "$work/out" &&
            grep -qF 'bin/replay <HISTORY >LINES' "$work/out" && grep -q '^Example' "$work/out" &&
            grep -q '^  QQ N M  ' "$work/out" && grep -q '^Exit status: 0; 1 ' "$work/out" || shown "$word" || return 1
        if grep -q -e '^#' -e 'set -u' "$work/out"; then echo "more than the head of the file"; return 1; fi
    done
    status_of sh -c 'exec bin/replay --help >/dev/full'
    refused_with 3 'replay: standard output: these lines could not be written'
}

# The example of the help is run, as it stands there.
example_of_help() {
    mkdir -p "$work/example"
    ln -sf "$top/bin" "$top/examples" "$work/example"
    example=$(bin/replay --help | sed -n 's/^  \(bin\/history bytes .*\)/\1/p')
    (cd "$work/example" && sh -c "$example") | cmp - examples/inserted_second.out
}

replays() { # COMMAND
    printf '\003' >"$work/bytes"
    status_of "$@" <"$work/bytes"
    [ "$status" -eq 0 ] && [ "$(cat "$work/out")" = '1970-01-01T00:00:00Z 000000 4' ] && [ ! -s "$work/said" ] || shown "$*"
}

through_links() {
    mkdir -p "$work/a place/-> b"
    ln -sf "$top/bin/replay" "$work/a place/straight"
    ln -sf "a place/straight" "$work/to a link"
    ln -sf "../../to a link" "$work/a place/-> b/far -> off"
    ln -sf "$top/bin" "$work/folder"
    for link in 'a place/straight' 'to a link' 'a place/-> b/far -> off' folder/replay; do replays "$work/$link" || return 1; done
    (cd "$work/a place" && replays ./straight) && (cd "$work" && PATH="$work/a place:$PATH" && replays straight)
}

from_elsewhere() {
    mkdir -p "$work/x/bin"
    (cd / && replays "$top/bin/replay") && (cd bin && replays ./replay) && replays sh bin/replay &&
        (CDPATH=$work/x && export CDPATH && replays bin/replay)
}

tell "arguments of bin/replay" no_arguments
tell "the help of bin/replay" helps
tell "the example in the help of bin/replay" example_of_help
tell "bin/replay from another folder" from_elsewhere
tell "bin/replay through symbolic links" through_links
