# The bytes of every form of a line, and their text, against stored ones.
# shellcheck shell=sh

octets() { od -An -v -tx1 | tr ' ' '\n' | sed '/^$/d'; }

stored() {
    sed 's/#.*//' test/history_forms.hex | tr -s ' ' '\n' | sed '/^$/d' >"$work/hex"
    bin/history bytes <test/history_forms.txt >"$work/bytes" || return 1
    octets <"$work/bytes" | diff - "$work/hex" || return 1
    bin/history text <"$work/bytes" | diff - test/history_forms.plain || return 1
    bin/history bytes <test/history_forms.plain | cmp - "$work/bytes"
}

# A line, and the line that `text` writes of it.
same_as() { # TABLE
    failures=0
    while IFS= read -r row; do
        case $row in '#'* | '') continue ;; esac
        [ "$(printf '%s\n' "${row%% => *}" | bin/history bytes | bin/history text)" = "${row#* => }" ] && continue
        echo "not so: $row"
        failures=$((failures + 1))
    done <"$1"
    [ "$failures" -eq 0 ]
}

# What is not text, but harmless: no newline at the end, line ends of other systems, bytes of any kind in a comment.
odd_input() {
    [ "$(printf 'tick 5\nprint' | bin/history bytes | octets | tr -d '\n')" = 000503 ] || { echo "the last line is lost"; return 1; }
    [ "$(printf 'tick 5\r\n\tprint \r\n' | bin/history bytes | octets | tr -d '\n')" = 000503 ] || { echo "line ends"; return 1; }
    [ "$(printf 'print # \303\274 \000 \377 \001\n' | bin/history bytes | octets | tr -d '\n')" = 03 ] || { echo "a comment"; return 1; }
    [ "$(printf '\357\273\277tick 5\nprint\n' | bin/history bytes | octets | tr -d '\n')" = 000503 ] ||
        { echo "a mark before the text"; return 1; }
    printf '' | bin/history bytes >"$work/bytes" && [ ! -s "$work/bytes" ] || { echo "no text"; return 1; }
    printf '' | bin/history text >"$work/text" && [ ! -s "$work/text" ] || { echo "no bytes"; return 1; }
}

# A number has at most five bytes, the last of which is below 128 and, but for 0 itself, not 0: text tells
# other bytes raw.
no_numbers() {
    for row in '0 128 128 128 128 128 1' '0 255 255 255 255 255 1' '128 128 128 128 128 0' \
        '0 128 128 128 128 128' '0 128 0' '0 128' 5 '2 1'; do
        [ "$(echo "raw $row" | bin/history bytes | bin/history text)" = "raw $row" ] ||
            { echo "not told raw: $row"; return 1; }
    done
    echo 'raw 3 0 255 255 255 255 127 0 255 255 255 255 128' | bin/history bytes | bin/history text >"$work/text"
    printf '%s\n' print 'tick 34359738367' 'raw 0 255 255 255 255 128' | diff - "$work/text"
}

# Code 4 is `summary` at place 0, in its one written form; elsewhere it is a code that is not known. Bytes, in
# octal, and the lines of their text, which comes back.
summary_of_bytes() {
    for row in '\004=summary' '\004\000\001=summary,tick 1' '\004\004=summary,raw 4' '\000\001\004=tick 1,raw 4' \
        '\004\003\004\003=summary,print,raw 4 3' '\003\004=print,raw 4' '\204\000=raw 132 0' '\204\001=raw 132 1' \
        '\204\200\200\200\000=raw 132 128 128 128 0' '\004\204\000=summary,raw 132 0'; do
        # shellcheck disable=SC2059
        printf "${row%=*}" >"$work/bytes"
        bin/history text <"$work/bytes" >"$work/text" && bin/history bytes <"$work/text" | cmp - "$work/bytes" &&
            [ "$(tr '\n' , <"$work/text")" = "${row#*=}," ] || { echo "not so: $row"; cat "$work/text"; return 1; }
    done
}

# The word may have comments and empty lines before it, and line ends and a mark of other systems.
summary_of_text() {
    for row in 'summary\n' 'summary' '# why\n\n \t\n  summary # so\n' '\r\nsummary\r\n' '\357\273\277summary\n' 'raw 4\n'; do
        # shellcheck disable=SC2059
        [ "$(printf "$row" | bin/history bytes | octets)" = 04 ] || { echo "not the summary: $row"; return 1; }
    done
}

tell_awks "the bytes and the text of every form" stored
tell_awks "bytes with the summary's code" summary_of_bytes
tell_awks "text with the summary's word" summary_of_text
tell_awks "units and decimals" same_as test/history_units.table
tell_awks "odd text" odd_input
tell_awks "bytes that are no numbers" no_numbers
