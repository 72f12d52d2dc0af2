# The documents are finished: nothing in them holds a place for what is still to come, or is to be found on one machine alone.
# shellcheck shell=sh

# Prose is at most so many columns wide.
widest=120

# The lines of prose that are too wide: neither a row of a table, nor code, nor a line that is one link. A character
# counts once, however many bytes it has.
too_wide() { # FILE
    awk -v widest="$widest" '
        /^    / && (blank || code) { code = 1; next }
        /^$/ { blank = 1; next }
        { code = blank = 0 }
        /^\|/ || /^!?\[[^ ]*\]\([^ ]*\)$/ { next }
        { text = $0; gsub(/[\200-\277]/, "", text) }
        length(text) > widest { print NR ": " length(text) " columns: " substr($0, 1, 60) ".." }' "$1"
}

# Every fault of a document, with its line.
faults() { # FILE
    too_wide "$1"
    grep -nE -e '^[[:space:]]*[A-Z_]{2,}[[:space:]]*$' -e 'TODO|FIXME|XXX' -e '(^|[^[:alnum:]_.])/(work|tmp|opt|home)(/|[^[:alnum:]_]|$)' "$1"
    # A relative link, without the place in the file.
    grep -oE '\]\([^)]+\)' "$1" | sed -e 's/^](//' -e 's/)$//' -e 's/#.*//' | while IFS= read -r link; do
        case $link in
        '' | *://* | mailto:*) ;;
        *) [ -e "$(dirname -- "$1")/$link" ] || echo "a link leads nowhere: $link" ;;
        esac
    done
}

# What is a fault is seen, and what is none is not taken for one.
seen() {
    columns=$(printf '%0120d' 0)
    for row in "a ${columns#00}x" "- ${columns#0}" "${columns}λ" \
        BENCHTABLE '  CHECK_TABLE' 'TODO: more' 'a FIXME' 'XXX' 'see /work/x' '`/tmp`' '/opt/kit' 'in /home/me' '[a](nowhere.md)'; do
        echo "$row" >"$work/a.md"
        [ -n "$(faults "$work/a.md")" ] || { echo "not seen: $row"; return 1; }
    done
    for row in "${columns#0}λ" "| $columns |" "[$columns](a.md)" "$(printf 'a\n\n    %s' "$columns")" \
        'NOTE that' A 'docs/worked_day.txt' 'bin/work' '[a](a.md#b)' '[b](#b)' '[c](https://example.org/c)'; do
        echo "$row" >"$work/a.md"
        [ -z "$(faults "$work/a.md")" ] || { echo "taken for a fault: $row"; return 1; }
    done
}

finished() { # FILE
    told=$(faults "$1")
    [ -z "$told" ] || { printf '%s\n' "$told"; return 1; }
}

tell "faults of a document" seen
for document in README.md CONTRIBUTING.md docs/*.md examples/README.md; do
    tell "$document" finished "$document"
done
