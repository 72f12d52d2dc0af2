# Lines and lengths that are refused, with what is said of them, and nothing written.
# shellcheck shell=sh

refused_line() { # LINE WHY
    printf 'tick 1\n%s\n' "$1" >"$work/text"
    status_of bin/history bytes <"$work/text"
    refused_with 1 "" && [ "$(cat "$work/said")" = "history: line 2: $2: $1" ] || shown "not so: $1 => $2"
}

refused_lines() {
    failures=0
    while IFS= read -r row; do
        case $row in '#'* | '') continue ;; esac
        refused_line "${row%% => *}" "${row#* => }" && continue
        failures=$((failures + 1))
        [ -z "$first" ] || return 1
    done <test/history_refused.table
    [ "$failures" -eq 0 ]
}

# What is said of a text whose lines together are refused.
refused_text() { # TEXT SAID
    # shellcheck disable=SC2059
    printf "$1" >"$work/text"
    status_of bin/history bytes <"$work/text"
    refused_with 1 "history: $2"
}

refused_blocks() {
    refused_text 'repeat 2 {\ntick 1\nrepeat 2 tick 1\n}\n' 'line 3: a repeat in a repeat: repeat 2 tick 1' &&
        refused_text 'repeat 2 {\nrepeat 2 {\n}\n}\n' 'line 2: a repeat in a repeat: repeat 2 {' &&
        refused_text 'repeat 2 {\ntick 1\n} print\n' 'line 3: } stands alone: } print' &&
        refused_text 'repeat 2 {\n}\n}\n' 'line 3: no block is open: }' &&
        refused_text 'print\nrepeat 0 {\ntock\n}\n' 'line 3: no such event: tock' &&
        refused_text 'print\n\nrepeat 2 {\ntick 1\n' 'line 3: the block is not closed: repeat 2 {' &&
        refused_text 'repeat 32768 {\ntick 1\nprint\n}\n' 'line 4: more than 65537 bytes'
}

# The summary is asked for on the first line that holds anything, alone there.
refused_summaries() {
    why='summary is allowed as the first event alone, and in no repeat'
    refused_text 'summary\nsummary\n' "line 2: $why: summary" &&
        refused_text '# why\n\nsummary\ntick 1\n\n  summary # again\n' "line 6: $why:   summary # again" &&
        refused_text 'raw 4\nsummary\n' "line 2: $why: summary" &&
        refused_text 'repeat 1 summary\n' "line 1: $why: repeat 1 summary" &&
        refused_text 'repeat 0 summary\n' "line 1: $why: repeat 0 summary" &&
        refused_text 'repeat 1 {\nsummary\n}\n' "line 2: $why: summary" &&
        refused_text 'summary\nrepeat 2 {\ntick 1\nsummary\n}\n' "line 4: $why: summary" &&
        refused_text 'repeat 0 {\ntick 1\n}\nsummary\n' "line 4: $why: summary" &&
        refused_text 'summary 4\n' 'line 1: summary stands alone: summary 4' &&
        refused_text 'summary summary\n' 'line 1: summary stands alone: summary summary' &&
        refused_text 'Summary\n' 'line 1: no such event: Summary' &&
        refused_text 'SUMMARY\n' 'line 1: no such event: SUMMARY'
}

# Bytes that no line holds are shown as question marks; a long line is cut.
refused_junk() {
    refused_text 'tick 1\000\n' 'line 1: tick wants a number from 0 to 34359738367: tick 1?' &&
        refused_text '\033[31mtick 1\n' 'line 1: no such event: ?[31mtick 1' &&
        refused_text 'tick \303\274\n' 'line 1: tick wants a number from 0 to 34359738367: tick ??' || return 1
    awk 'BEGIN { for (i = 0; i < 100000; i++) printf "x"; print "" }' >"$work/text"
    status_of bin/history bytes <"$work/text"
    refused_with 1 'history: line 1: no such event: xxxx' && [ "$(wc -c <"$work/said")" -lt 200 ]
}

# The longest history that tells anything has one byte more than the replay runs. Absurd repeats are refused before they are written out.
lengths() {
    printf 'print\nrepeat 32768 tick 0\n' | bin/history bytes >"$work/bytes" || return 1
    [ "$(wc -c <"$work/bytes")" -eq 65537 ] && bin/history text <"$work/bytes" >"$work/text" || return 1
    [ "$(wc -l <"$work/text")" -eq 32769 ] || { echo "the text has not all lines"; return 1; }
    awk 'BEGIN { printf "raw"; for (i = 0; i < 65537; i++) printf " 255"; print "" }' >"$work/raw"
    bin/history bytes <"$work/raw" | bin/history text | cmp - "$work/raw" || return 1
    printf '\003' >>"$work/bytes"
    status_of bin/history text <"$work/bytes"
    refused_with 1 'history: more than 65537 bytes, where the replay runs 65536 at most' || return 1
    refused_text 'print\nrepeat 32768 tick 0\nprint\n' 'line 3: more than 65537 bytes' || return 1
    refused_text 'repeat 65537 tick 34359738367\nrepeat 65537 tick 34359738367\n' 'line 1: more than 65537 bytes'
}

# An input without end is refused, and soon: by the processor seconds of its own that it takes, some tenths of
# one where it is one line.
endless() {
    status_of_work 6 bin/history bytes </dev/zero
    refused_with 1 'history: line 1: a line has at most 524288 characters: ???' || return 1
    yes '# a comment of some forty characters, alone' 2>/dev/null | {
        status_of_work 6 bin/history bytes
        refused_with 1 ': a text has at most 2097152 characters: #'
    }
}

# The longest line and the longest text are taken.
longest_text() {
    awk 'BEGIN { printf "print #"; for (i = 0; i < 524281; i++) printf "x"; print "" }' >"$work/text"
    [ "$(bin/history bytes <"$work/text" | od -An -tx1)" = ' 03' ] || { echo "the longest line"; return 1; }
    sed 's/#/##/' "$work/text" >"$work/longer"
    status_of bin/history bytes <"$work/longer"
    refused_with 1 'history: line 1: a line has at most 524288 characters: print ##xxx' || return 1
    awk 'BEGIN { for (i = 0; i < 262143; i++) print "       "; print "  print" }' >"$work/text"
    [ "$(wc -c <"$work/text")" -eq 2097152 ] && [ "$(bin/history bytes <"$work/text" | od -An -tx1)" = ' 03' ] ||
        { echo "the longest text"; return 1; }
}

tell_awks "an input without end" endless
tell_awks "lines that are refused" refused_lines
tell_awks "blocks that are refused" refused_blocks
tell_awks "summaries that are refused" refused_summaries
tell_awks "lines of junk" refused_junk
tell_awks "the longest history" lengths
tell_awks "the longest text" longest_text
