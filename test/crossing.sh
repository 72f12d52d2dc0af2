# What crosses to C has the same fields in the same order, and the same types, in c/heukelvos.h and in the
# crates, and the places and the refusals that docs/REFERENCE.md says.
# shellcheck shell=sh

# The header's structs and functions are those of the crates.
same_declarations() { # HEADER FILE...
    awk -f test/crossing.awk "$1" | sort >"$work/header"
    shift
    awk -v side=crates -f test/crossing.awk docs/REFERENCE.md "$@" | sort >"$work/crates"
    [ "$(grep -c '^struct ' "$work/crates")" -ge 9 ] && [ "$(grep -c '^fn ' "$work/crates")" -ge 11 ] ||
        { cat "$work/crates"; echo "too few structs or functions were found"; return 1; }
    diff "$work/crates" "$work/header"
}

# Each refusal has the number and the name that the reference gives it, and there is no other.
same_refusals() { # HEADER
    sed -n '/^enum heukelvos_refusal/,/^}/s/^	\(HEUKELVOS_[A-Z_]*\) = \([0-9]*\).*/\2 \1/p' "$1" >"$work/names"
    sed -n '/^## Refusals/,/^## Numbers/s/^| \([0-9][0-9]*\) | `\(HEUKELVOS_[A-Z_]*\)` |.*/\1 \2/p' \
        docs/REFERENCE.md >"$work/reference"
    [ "$(wc -l <"$work/reference")" -ge 20 ] ||
        { cat "$work/reference"; echo "too few refusals were found"; return 1; }
    diff "$work/names" "$work/reference"
}

# The lines of two fields of a struct, each in the place of the other.
exchanged() { # FILE STRUCT FIELD FIELD
    awk -v struct="$2" -v a="$3" -v b="$4" '
        { row[NR] = $0 }
        $0 ~ "struct " struct " [{]" { inside = 1 }
        /^[}]/ { inside = 0 }
        inside && $0 ~ "[ \t]" a "[:;]" { first = NR }
        inside && $0 ~ "[ \t]" b "[:;]" { second = NR }
        END {
            if (!first || !second) exit 1
            for (i = 1; i <= NR; i++) print row[i == first ? second : i == second ? first : i]
        }' "$1"
}

# Two fields of one type, or two refusals, that are exchanged are seen, on either side.
exchange_is_seen() {
    cat crates/*/src/*.rt >"$work/all.rt"
    same_declarations c/heukelvos.h "$work/all.rt" || return 1
    for pair in 'Request maxerror esterror' 'Reading maxerror esterror' 'Clock remainder leftover'; do
        # shellcheck disable=SC2086
        exchanged "$work/all.rt" $pair >"$work/exchanged.rt" || { echo "no such fields: $pair"; return 1; }
        same_declarations c/heukelvos.h "$work/exchanged.rt" >/dev/null &&
            { echo "not seen in the crates: $pair"; return 1; }
    done
    for pair in 'heukelvos_request maxerror esterror' 'heukelvos_reading maxerror esterror' \
        'heukelvos_event seconds micros'; do
        # shellcheck disable=SC2086
        exchanged c/heukelvos.h $pair >"$work/exchanged.h" || { echo "no such fields: $pair"; return 1; }
        same_declarations "$work/exchanged.h" "$work/all.rt" >/dev/null &&
            { echo "not seen in the header: $pair"; return 1; }
    done
    sed -e 's/REFUSED_ENDED = 10/REFUSED_FORM = 10/' -e 's/REFUSED_FORM = 11/REFUSED_ENDED = 11/' \
        c/heukelvos.h >"$work/exchanged.h"
    cmp -s c/heukelvos.h "$work/exchanged.h" && { echo "the header has no such refusals"; return 1; }
    same_refusals "$work/exchanged.h" >/dev/null && { echo "not seen in the header: two refusals"; return 1; }
    return 0
}

# The reference's bytes and places, as assertions: 'STRUCT BYTES PLACE..', the places in the order of the
# fields.
places() {
    sed -n 's/^| .*`struct \(heukelvos_[a-z_]*\)` | \([0-9]*\) | \(.*\) |$/\1 \2 \3/p' docs/REFERENCE.md |
        sed -e ':a' -e 's/^\(heukelvos_[a-z_]* .*\)[^0-9 ]/\1 /' -e 'ta' | while read -r name bytes rest; do
        echo "_Static_assert(sizeof(struct $name) == $bytes, \"size of $name\");"
        # shellcheck disable=SC2086
        set -- $rest
        for field in $(sed -n "s/^struct $name: //p" "$work/header" | tr ',' '\n' | sed 's/.* //'); do
            echo "_Static_assert(offsetof(struct $name, $field) == ${1:-missing}, \"$name.$field\");"
            [ $# -eq 0 ] || shift
        done
        [ $# -eq 0 ] || echo "#error the reference has more places for $name than it has fields"
    done
}

as_the_reference_says() {
    awk -f test/crossing.awk c/heukelvos.h >"$work/header"
    { echo '#include "heukelvos.h"' && places; } >"$work/places.c"
    [ "$(grep -c sizeof "$work/places.c")" -eq "$(grep -c '^struct ' "$work/header")" ] ||
        { cat "$work/places.c"; return 1; }
    gcc -std=c11 -Wall -Wextra -Werror -fsyntax-only -Ic "$work/places.c"
}

tell "what crosses to C, in the crates and in the header" same_declarations c/heukelvos.h crates/*/src/*.rt
tell "the header's refusals are the reference's" same_refusals c/heukelvos.h
tell "fields and refusals that are exchanged" exchange_is_seen
if [ -n "$(no_c)" ]; then
    pass_over "bytes and places of the reference" "$(no_c)"
else
    tell "bytes and places of the reference" as_the_reference_says
fi
