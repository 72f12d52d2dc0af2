# What the program does with a lot of output, with input in parts, and where a read or a write fails.
# shellcheck shell=sh

# More lines than one buffer holds.
many_lines() {
    echo "repeat 65536 print" | bin/history bytes | crates/replay/out/replay >"$work/lines"
    yes '1970-01-01T00:00:00Z 000000 4' | head -n 65536 | cmp - "$work/lines"
}

# One offset in each quarter-hour, the last first, behind so many prints that the summary's 96 lines, in order,
# begin in one buffer and end in the next, or begin one.
many_quarters() {
    for prints in 0 2150 2160 2170 2183 2184; do
        awk -v n="$prints" 'BEGIN {
            print "summary\nrepeat " n " print"
            for (q = 95; q >= 0; q--) {
                printf "set %d 0\nrequest offset %d\n", 900 * q + 899, (q % 2 ? -1000 : 1000) * (q + 1)
            }
        }' | bin/history bytes | crates/replay/out/replay >"$work/lines"
        awk -v n="$prints" 'BEGIN {
            for (i = 0; i < n; i++) print "1970-01-01T00:00:00Z 000000 4"
            for (q = 0; q < 96; q++) printf "%02d 1 %d\n", q, 1000 * (q + 1)
        }' | cmp - "$work/lines" || { echo "$prints prints"; return 1; }
    done
}

# Bytes, in octal, and their lines: the summary is printed where the first event asks for it and no `log` line
# ended the run.
summaries() {
    for row in '=' '\004=' '\002\001\000=' '\004\002\001\000=00 1 0,' '\004\002\001\317\017=00 1 1000,' \
        '\004\002\000=' '\004\002\001\000\002\001\000=refused 17,00 1 0,' '\004\002\101\000=refused 4,' \
        '\004\002\001\000\002=log 10 at 4,' '\004\004=log 12 at 1,' '\004\002\001\000\004=log 12 at 4,' \
        '\000\001\004=log 12 at 2,' '\204\000=log 11 at 0,'; do
        # shellcheck disable=SC2059
        printf "${row%=*}" | crates/replay/out/replay >"$work/lines" || return 1
        [ "$(tr '\n' , <"$work/lines")" = "${row#*=}" ] || { echo "not so: $row"; cat "$work/lines"; return 1; }
    done
}

# The longest history has its summary, and one more byte ends it.
longest_summary() {
    printf 'summary\nrequest offset 5\nrepeat 32766 tick 0\n' | bin/history bytes >"$work/bytes" || return 1
    [ "$(wc -c <"$work/bytes")" -eq 65536 ] && [ "$(crates/replay/out/replay <"$work/bytes")" = '00 1 5' ] || return 1
    printf '\003' >>"$work/bytes"
    [ "$(crates/replay/out/replay <"$work/bytes")" = 'log 13 at 65536' ]
}

in_parts() {
    {
        printf '\000\200'
        sleep 1
        printf '\002\003'
    } | bin/replay >"$work/out" 2>"$work/said" &&
        [ "$(cat "$work/out")" = '1970-01-01T00:00:01Z 000000 4' ] && [ ! -s "$work/said" ]
}

failed_read() {
    status_of bin/replay </
    refused_with 3 'replay: standard input' || { echo "a folder"; return 1; }
    status_of bin/replay <&-
    refused_with 3 'replay: standard input' || { echo "a closed input"; return 1; }
}

# What was read before a failure is not run: these two prints would write lines.
failed_late() {
    status_of perl test/failing_input.pl "$(printf '\003\003')" bin/replay
    refused_with 3 'replay: standard input' || return 1
    status_of perl test/failing_input.pl "$(printf '\003\003')" crates/replay/out/replay
    refused_with 0 'replay: standard input'
}

failed_write() {
    printf '\003' >"$work/bytes"
    status_of sh -c 'exec bin/replay <"$1" >/dev/full' sh "$work/bytes"
    refused_with 3 'replay: standard output' || { echo "a full device"; return 1; }
    status_of sh -c 'exec bin/replay <"$1" >&-' sh "$work/bytes"
    refused_with 3 'replay: standard output' || { echo "a closed output"; return 1; }
}

# Where nobody reads its lines it ends with the status of the signal of that, and says nothing.
unread_lines() {
    echo "repeat 65536 print" | bin/history bytes >"$work/bytes"
    for replay in bin/replay crates/replay/out/replay; do
        { $replay <"$work/bytes" 2>"$work/said"; echo $? >"$work/status"; } | true
        [ "$(cat "$work/status")" -eq 141 ] && [ ! -s "$work/said" ] || { echo "$replay: status $(cat "$work/status")"; return 1; }
    done
}

tell "65,536 lines" many_lines
tell "a summary of 96 lines, in one buffer or two" many_quarters
tell "where a summary is printed" summaries
tell "the summary of the longest history" longest_summary
tell "an input in parts" in_parts
tell "a failed read of the replay" failed_read
tell "a failed write of the replay" failed_write
tell "lines of the replay that nobody reads" unread_lines
if perl test/failing_input.pl x true 2>/dev/null; then
    tell "a read of the replay that fails late" failed_late
else
    pass_over "a read of the replay that fails late" "there is no perl, or no terminal to be had, so that this is not tested"
fi
