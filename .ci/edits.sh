# What an edit is, and how it is put into a crate: for .ci/lies, which sets `root`, the repository, `listed`,
# its crates, and `work`.
# shellcheck shell=sh

# Says what is wrong with the form of an edit, by its lines alone.
form_of() { # FILE
    awk '
        function wrong(why) { if (!told) print why; told = 1 }
        NR == 1 && !/^# [A-Z0-9].*[.]$/ {
            wrong("its first line is not `# ` and a sentence that says what is wrong")
        }
        NR == 1 && length($0) > 110 { wrong("its first line has more than 110 columns") }
        NR == 2 && !/^file: / { wrong("its second line is no `file:` line") }
        NR == 1 { next }
        /^file: (src|specs)\/./ { next }
        /^file: / { wrong("it is aimed at " substr($0, 7) ", and a lie is one of src/ or specs/"); next }
        /^old: ./ { if (old != "") wrong("an `old:` line has no `new:` line"); old = substr($0, 6); next }
        /^new:/ {
            if (old == "") wrong("a `new:` line has no `old:` line")
            if ($0 == "new: " old) wrong("a `new:` line is what its `old:` line is")
            old = ""
            pairs++
            next
        }
        { wrong("line " NR " is no `file:`, `old:` or `new:` line") }
        END {
            if (old != "") wrong("an `old:` line has no `new:` line")
            if (!pairs) wrong("it has no `old:` and `new:` pair")
        }' "$1"
}

# Puts one text, which stands once in a file, in the place of another.
put() { # FILE OLD NEW
    OLD=$2 NEW=$3 awk '
        { text = text $0 "\n" }
        END {
            old = ENVIRON["OLD"]
            at = index(text, old)
            if (!at || old == "") exit 3
            rest = substr(text, at + length(old))
            if (index(rest, old)) exit 4
            printf "%s%s%s", substr(text, 1, at - 1), ENVIRON["NEW"], rest
        }' "$1" >"$1.edited"
    case $? in
    0) mv "$1.edited" "$1" && return ;;
    3) echo "an \`old:\` text is not in ${1##*/}" ;;
    *) echo "an \`old:\` text is in ${1##*/} more than once" ;;
    esac
    rm -f "$1.edited"
    return 1
}

# Puts an edit into the folder of a crate, by the rules of `rt must-fail`. Where it does not fit it says why.
apply() { # EDIT FOLDER
    file='' old=''
    while IFS= read -r row || [ -n "$row" ]; do
        case $row in
        'file: '*) file=${row#file: } ;;
        'old: '*) old=${row#old: } ;;
        'new:'*)
            new=${row#new:}
            [ -f "$2/$file" ] || { echo "there is no $file"; return 1; }
            put "$2/$file" "$old" "${new# }" || return 1
            ;;
        esac
    done <"$1"
}

# Puts a crate of a copy back as it stands in the repository.
restore() { # NAME FOLDER
    for part in src specs proofs; do
        rm -rf "${2:?}/$part"
        [ ! -d "$root/crates/$1/$part" ] || cp -R "$root/crates/$1/$part" "$2/$part" || return 1
    done
}

# The names of a crate's edits, of must-fail, lies or harmless.
edits_of() { # NAME KIND
    for edit in "$root/crates/$1/$2"/*.edit; do [ ! -f "$edit" ] || basename "$edit" .edit; done
}

count_edits() { # KIND NAME...
    kind=$1
    shift
    for name in "$@"; do edits_of "$name" "$kind"; done | grep -c .
}

# The first place that an edit changes.
place_of() { # FILE
    awk '/^file: / { file = $0 } /^old: / { print file; print; exit }' "$1"
}

# Says what is wrong with the edits of one kind: their names, their form, and whether they fit the crate.
misfits() { # NAME KIND
    for path in "$root/crates/$1/$2"/* "$root/crates/$1/$2"/.[!.]*; do
        [ -e "$path" ] || continue
        [ -f "$path" ] || echo "$1/$2/${path##*/}: it is no file"
        case $path in
        *.edit) ;;
        *) echo "$1/$2/${path##*/}: its name does not end in .edit, so nothing tries it" ;;
        esac
    done
    for label in $(edits_of "$1" "$2"); do
        why=$(form_of "$root/crates/$1/$2/$label.edit")
        if [ -z "$why" ]; then
            mkdir -p "$work/form" && restore "$1" "$work/form" || return 1
            why=$(apply "$root/crates/$1/$2/$label.edit" "$work/form")
        fi
        [ -z "$why" ] || echo "$1/$2/$label: $why"
    done
    rm -rf "$work/form"
}

# Says what is wrong between the edits of a crate: a lie stands in one place, a harmless edit is the twin of a
# lie, and a crate that has lies has one.
strays() { # NAME
    for label in $(edits_of "$1" lies); do
        [ ! -f "$root/crates/$1/must-fail/$label.edit" ] || echo "$1/lies/$label: it stands in must-fail/ too"
    done
    for label in $(edits_of "$1" harmless); do
        twin=$root/crates/$1/lies/$label.edit
        [ -f "$twin" ] || twin=$root/crates/$1/must-fail/$label.edit
        if [ ! -f "$twin" ]; then
            echo "$1/harmless/$label: it is the twin of no lie: neither lies/ nor must-fail/ has this name"
        elif [ "$(place_of "$twin")" != "$(place_of "$root/crates/$1/harmless/$label.edit")" ]; then
            echo "$1/harmless/$label: its first change is not at the place of its twin's"
        fi
    done
    [ -z "$(edits_of "$1" lies)" ] || [ -n "$(edits_of "$1" harmless)" ] ||
        echo "$1: it has lies and no harmless edit: put the twin of one into crates/$1/harmless/"
}

# Every fault of form, a line each.
faults() {
    for name in $listed; do
        for kind in must-fail lies harmless; do misfits "$name" "$kind"; done
        strays "$name"
    done
    for path in "$root"/crates/*/must-fail "$root"/crates/*/lies "$root"/crates/*/harmless; do
        name=${path%/*}
        name=${name##*/}
        [ ! -d "$path" ] || is_listed "$name" || echo "$name/${path##*/}: crates.txt does not list $name"
    done
}
