# Every snippet of the documents is tried, in the form that test/snippets.forms gives it: this file runs those
# in C and those of the shell; test/snippets_rattle.sh has those in Rattle proved.
# shellcheck shell=sh
. test/snippets.lib

# A whole program, compiled as C, linked with both libraries, and run.
snippet_in_c() { # FORM
    filled "$1" >"$work/snippet.c"
    gcc -std=c11 -Wall -Wextra -Wno-unused-variable -Wno-unused-but-set-variable -Werror -Ic -o "$work/snippet" \
        "$work/snippet.c" crates/heukelvos_rig/out/libheukelvos_rig.a crates/heukelvos/out/libheukelvos.a && "$work/snippet"
}

# A script, in which $block is the file with the block, and $work a folder.
snippet_of_shell() { # FORM
    filled "$1" >"$work/snippet.sh"
    block=$(cat "$1.found") work=$work sh -eu "$work/snippet.sh"
}

tell "each snippet of the documents has a form in which it is tried" find_snippets
if find_snippets >/dev/null; then
    for form in $(forms_of shell); do tell "$(cut -c 1-80 "$form.of")" snippet_of_shell "$form"; done
    for form in $(forms_of gcc) $(forms_of c); do
        name=$(cut -c 1-80 "$form.of")
        if [ -n "$(no_c)" ]; then
            pass_over "$name" "$(no_c)"
        elif grep -q '^c$' "$form.kind"; then
            tell "$name" snippet_in_c "$form"
        else
            tell "$name" snippet_of_shell "$form"
        fi
    done
fi
