# Every broken version of test/broken.edits, or of the list that EDITS names, is noticed by its test. As many
# are tried at once as there are processors, at most four, each worker on a copy of its own, which it puts
# back after each version; they are told in the list's order.
# shellcheck shell=sh

edits=$work/edits list=${EDITS:-test/broken.edits}
parts='bin .ci test examples docs crates.txt c bench README.md CONTRIBUTING.md LICENSE'
built='replay/out/replay cross_check/out/cross_check heukelvos/out/libheukelvos.a heukelvos_rig/out/libheukelvos_rig.a'

# Puts one text, which stands there once, in the place of another.
replace() { # FILE OLD NEW
    OLD=$2 NEW=$3 awk '
        { text = text $0 "\n" }
        END {
            old = ENVIRON["OLD"]
            at = index(text, old)
            rest = substr(text, at + length(old))
            if (!at || old == "" || index(rest, old)) exit 1
            printf "%s%s%s", substr(text, 1, at - 1), ENVIRON["NEW"], rest
        }' "$1" >"$copy.edited" && cat "$copy.edited" >"$1"
}

# A copy of what the tests look at, and of the runner beside the one that an edit may break. The programs are
# put there last, and so are not built again; nor are the libraries for C. Of the rest of an out/, which is
# large, the kit takes what it needs from where it is.
new_copy() {
    mkdir -p "$copy/sound"
    # shellcheck disable=SC2086
    cp -R $parts "$copy"
    copy_crates "$copy"
    cp test/run "$copy/sound/run"
    for file in $built; do
        [ -f "crates/$file" ] || continue
        mkdir -p "$copy/crates/${file%/*}"
        cp "crates/$file" "$copy/crates/$file"
    done
}

# Runs tests on the copy, with one awk, and waits so that a signal is heard.
tests_on_copy() { # WORD...
    AWKS='awk' SOUND=$sound "$copy/sound/run" "$@" >"$copy.log" 2>&1 &
    tests=$!
    wait "$tests"
}

# Without an edit every test passes on a copy, so that it is the edit that is noticed.
sound_copy() {
    sound=''
    # shellcheck disable=SC2086
    tests_on_copy $noticing || { cat "$copy.log"; return 1; }
}

# The test must fail on a copy with the edit. SOUND names what is known to pass: a program that the edit does
# not touch is not tried again.
noticed() { # FILE TEST OLD NEW
    if ! replace "$copy/$1" "$3" "$4"; then
        echo "the edit does not fit $1: '$3' does not stand there once"
        return 1
    fi
    sound=$top
    tests_on_copy --first "$2"
    passes=$?
    cat "$1" >"$copy/$1"
    touch "$copy/crates/replay/out/replay"
    [ "$passes" -ne 0 ] || { echo "test/run $2 passes"; return 1; }
    tail -n 1 "$copy.log" | grep -q ' passed, [1-9][0-9]* failed$' || { tail -n 5 "$copy.log"; return 1; }
}

# Whether the copy is what it was, so that one edit did not stand in another's way.
put_back() {
    for part in $parts crates; do diff -r -x out "$part" "$copy/$part" || return 1; done
}

try_one() { # NUMBER
    [ "$1" -gt 0 ] || { sound_copy; return; }
    {
        IFS= read -r file
        IFS= read -r by
        IFS= read -r old
        IFS= read -r new
    } <"$edits/$1/edit"
    noticed "$file" "$by" "$old" "$new"
}

# Tries what no other worker has begun, the sound copy first, and says the number of each.
try_edits() { # WORKER
    copy=$work/copy$1 tests=''
    trap '[ -z "$tests" ] || { kill -s TERM "$tests"; wait "$tests"; }; exit 143' TERM
    new_copy || return 1
    number=0
    while [ -d "$edits/$number" ]; do
        if mkdir "$edits/$number/begun" 2>/dev/null; then
            try_one "$number" >"$edits/$number/told" 2>&1
            echo $? >"$edits/$number/ended"
            mv "$edits/$number/ended" "$edits/$number/status"
            echo "$number"
        fi
        number=$((number + 1))
    done
    put_back >"$edits/copy$1" 2>&1 && rm "$edits/copy$1"
    echo end
}

verdict() { # NUMBER
    cat "$edits/$1/told"
    return "$(cat "$edits/$1/status")"
}

# Writes an edit down under the next number.
count=0
note() { # NAME FILE TEST OLD NEW
    mkdir -p "$edits/$count"
    echo "$1" >"$edits/$count/name"
    shift
    printf '%s\n' "$@" >"$edits/$count/edit"
    count=$((count + 1))
}

# Without a name a copy would run all tests, this one again, and so without end.
noticing=$(sed -n 's/^in .*, noticed by //p' "$list" | sort -u)
# shellcheck disable=SC2086
case " $(echo $noticing) " in
'  ' | *' broken '*) stop "$list names no test that notices anything, or names this one" ;;
esac

note "a copy that is not broken" '' '' '' ''
file='' old=''
while IFS= read -r row; do
    case $row in
    '= '*) wrong=${row#= } ;;
    'in '*)
        file=${row#in }
        by=${file#*, noticed by }
        file=${file%%, *}
        ;;
    '-'*) old=${row#-} old=${old# } ;;
    '+'*)
        new=${row#+}
        if [ "$by" = c_program ] && [ -n "$(no_c)" ]; then
            pass_over "noticed: $wrong ($by)" "$(no_c)"
        else
            note "noticed: $wrong ($by)" "$file" "$by" "$old" "${new# }"
        fi
        ;;
    esac
done <"$list"

mkfifo "$edits/lines"
processors=$(nproc 2>/dev/null || echo 1)
for worker in 1 2 3 4; do
    [ "$worker" -le "$processors" ] || continue
    try_edits "$worker" >"$edits/lines" &
    workers="$workers $!"
done
next=0
while read -r _; do
    while [ -f "$edits/$next/status" ]; do
        tell "$(cat "$edits/$next/name")" verdict "$next"
        next=$((next + 1))
    done
done <"$edits/lines"
workers=''
[ "$next" -eq "$count" ] || fault "of $count broken versions only $next were tried"
not_put_back() { # DIFFERENCES
    cat "$1"
    return 1
}
for left in "$edits"/copy*; do [ ! -f "$left" ] || tell "a copy is put back" not_put_back "$left"; done
