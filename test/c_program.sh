# c/heukelvos.h and the libraries for C: the programs of c/ are built against them and find nothing wrong; that of
# a lent clock ends where the replay of its history ends. The header's numbers are those of the crates.
# (test/crossing.sh compares the declarations.)
# shellcheck shell=sh

# No name is in both, and neither needs the other: they may be linked in any order.
libraries='crates/heukelvos_rig/out/libheukelvos_rig.a crates/heukelvos/out/libheukelvos.a'

# Every constant of the header, as 'NAME VALUE', without its prefix.
of_header() {
    sed -n -e 's/^#define HEUKELVOS_\([A-Z0-9_]*\) (\{0,1\}\(-\{0,1\}\)INT64_C(\([0-9]*\)).*/\1 \2\3/p' \
        -e 's/^	HEUKELVOS_\([A-Z0-9_]*\) = \([0-9]*\).*/\1 \2/p' c/heukelvos.h
}

# A command of sed for each refusal, which puts its number, as the enum has it, in the place of its name.
refusals_as_numbers() {
    sed -n 's/^    \([A-Z][a-z]*\) = \([0-9]*\),$/s,= Refusal::\1 as u8;$,= \2;,/p' crates/state/src/refusal.rt
}

# Every public constant of the crates that is written as a number, or as that of a refusal, the same way.
of_crates() {
    cat crates/state/src/*.rt crates/clock/src/*.rt crates/request/src/*.rt crates/rig/src/*.rt |
        sed -n -e "$(refusals_as_numbers)" \
            -e 's/^pub const \([A-Z0-9_]*\): [a-z0-9]* = \(-\{0,1\}[0-9]*\);$/\1 \2/p'
}

same_numbers() {
    of_header >"$work/header"
    of_crates >"$work/crates"
    compared=0
    while read -r name value; do
        in_header=$(sed -n "s/^$name //p" "$work/header")
        [ -n "$in_header" ] || continue
        [ "$in_header" = "$value" ] || { echo "$name is $value in the crates and $in_header in the header"; return 1; }
        compared=$((compared + 1))
    done <"$work/crates"
    [ "$compared" -ge 43 ] || { echo "only $compared constants were found in both"; return 1; }
}

# Included twice, as by two headers of a program.
twice() { printf '#include "heukelvos.h"\n#include "heukelvos.h"\n'; }

plain_c() { twice | gcc -std=c99 -Wall -Wextra -Wpedantic -Werror -fsyntax-only -Ic -x c -; }

# Each type by its own name, which in C++ a function of the same name would hide.
plain_cplusplus() {
    { twice && sed -n 's/^struct \(heukelvos_[a-z_]*\) {$/extern \1 a_\1;/p' c/heukelvos.h; } |
        g++ -Wall -Wextra -Wpedantic -Werror -fsyntax-only -Ic -x c++ -
}

# The header's numbers are signed and 64 bits wide, so that a product with an int is; they may stand in an #if.
wide_numbers() {
    names=$(sed -n 's/^#define \(HEUKELVOS_[A-Z0-9_]*\) .*/\1/p' c/heukelvos.h)
    twice
    for name in $names; do
        echo "_Static_assert(sizeof($name) == 8 && -1 - 0 * $name < 0, \"$name\");"
        printf '#if %s == 0\n#error %s\n#endif\n' "$name" "$name"
    done
    echo 'char label[HEUKELVOS_LABEL_SIZE], table[HEUKELVOS_MAX_CLOCKS];'
}

wide() {
    wide_numbers >"$work/wide.c"
    [ "$(grep -c Static "$work/wide.c")" -ge 20 ] || { cat "$work/wide.c"; return 1; }
    gcc -std=c11 -Wall -Wextra -Werror -fsyntax-only -Ic "$work/wide.c"
}

there_are_libraries() {
    for library in $libraries; do
        [ -f "$library" ] || { echo "there is no $library: run 'rt lib' in its crate's folder"; return 1; }
    done
}

# A program in C++ that calls the libraries, and names each of their functions, is linked and runs.
linked_cplusplus() {
    there_are_libraries || return 1
    {
        twice
        echo 'typedef void function();'
        echo 'function *const all[] = {'
        sed -n 's/^[a-z].*[ *]\(heukelvos_[a-z_]*\)(.*);$/    reinterpret_cast<function *>(\1),/p' c/heukelvos.h
        echo '};'
        echo 'int main(int, char **argv) {'
        echo '    heukelvos_clock c = heukelvos_set(heukelvos_fresh(HEUKELVOS_KIND_1024).clock, 5, 6).clock;'
        echo '    return heukelvos_read(c).reading.micros == 6 && all[argv[0] == 0] != 0 ? 0 : 1;'
        echo '}'
    } >"$work/linked.cc"
    [ "$(grep -c cast "$work/linked.cc")" -ge 11 ] || { cat "$work/linked.cc"; return 1; }
    # shellcheck disable=SC2086
    g++ -Wall -Wextra -Werror -Ic -o "$work/linked" "$work/linked.cc" $libraries && "$work/linked"
}

built() { # PROGRAM
    there_are_libraries || return 1
    # shellcheck disable=SC2086
    gcc -std=c11 -O2 -Wall -Wextra -Wpedantic -Werror -Ic -o "$work/$1" "c/$1.c" $libraries
}

# They keep nothing between two calls, and call nothing: the compiler may want memcpy and the like. No name is in both.
stand_alone() {
    # shellcheck disable=SC2086
    nm $libraries >"$work/symbols" || return 1
    for name in heukelvos_tick_in_place heukelvos_event_at; do
        [ "$(grep -c " T $name\$" "$work/symbols")" -eq 1 ] || { echo "there is not one $name"; return 1; }
    done
    ! grep -E ' [BCDGSbdgs] | U ' "$work/symbols" | grep -vE ' U mem(cpy|move|set)$'
}

nothing_wrong() { # PROGRAM
    status_of_work 60 "$work/$1"
    told=$(grep -c ': as it should be$' "$work/out")
    [ "$status" -eq 0 ] && [ "$told" -eq "$(grep -c '	check("' "c/$1.c")" ] || shown "$told of its checks"
}

# A million ticks, then catch-ups, with an inserted second and with the last one: the same lines, and none too few.
ends_as_the_replay() {
    "$work/lent_clock" history >"$work/events" && "$work/lent_clock" lines >"$work/wanted" || return 1
    grep -qx 'tick 1000000' "$work/events" && grep -q ':60Z ' "$work/wanted" && grep -qx 'refused 3' "$work/wanted" || return 1
    bin/history bytes <"$work/events" >"$work/bytes" || return 1
    crates/replay/out/replay <"$work/bytes" >"$work/lines" || return 1
    diff "$work/lines" "$work/wanted"
}

# A recorder of a rig ends where the replay of its own history ends, whatever the others did: each that is of the replay's kind.
each_as_its_replay() {
    for place in 0 2 4 6; do
        "$work/rig" history "$place" >"$work/events" && "$work/rig" lines "$place" >"$work/wanted" || return 1
        grep -q ':60Z ' "$work/wanted" && grep -qx 'refused 3' "$work/wanted" && grep -qx 'refused 17' "$work/wanted" || return 1
        bin/history bytes <"$work/events" >"$work/bytes" || return 1
        crates/replay/out/replay <"$work/bytes" >"$work/lines" || return 1
        diff "$work/lines" "$work/wanted" || { echo "the recorder at place $place"; return 1; }
    done
}

# Where broken versions are tried, SOUND is a folder whose programs are known to be right: whether these files
# are as there.
untouched() { # FILE...
    [ -n "${SOUND:-}" ] || return 1
    for part in "$@"; do cmp -s "$part" "$SOUND/$part" || return 1; done
}

tell "the header's numbers are the crates'" same_numbers
if [ -n "$(no_c)" ]; then
    pass_over "the program in C" "$(no_c)"
else
    tell "the header in C99" plain_c
    tell "the header's numbers are 64 bits wide" wide
    if command -v g++ >/dev/null; then
        tell "the header in C++" plain_cplusplus
        tell "a program in C++ is linked" linked_cplusplus
    else
        pass_over "the header in C++" "g++ is not on this machine"
    fi
    tell "the libraries stand alone" stand_alone
    for program in lent_clock rig; do
        if untouched "c/$program.c" c/clocks.h c/heukelvos.h; then
            pass_over "c/$program.c" "it is as it was"
            continue
        fi
        tell "c/$program.c is built" built "$program"
        tell "c/$program.c finds nothing wrong" nothing_wrong "$program"
        case $program in
        lent_clock) tell "c/lent_clock.c ends as the replay of its history" ends_as_the_replay ;;
        rig) tell "each recorder of c/rig.c ends as the replay of its own history" each_as_its_replay ;;
        esac
    done
fi
