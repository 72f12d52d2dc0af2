# bin/replay with the true kit: its lines are understood, and a lost program is built again. No crate has
# to be proved anew for that where the kit keeps what it proved.
# shellcheck shell=sh

# Whether the program was built, by lines that tell crates which are proved, and prints a fresh clock.
built_so() { # STATUS
    [ "$1" -eq 0 ] && [ "$(cat "$work/out")" = '1970-01-01T00:00:00Z 000000 4' ] &&
        sed -n 1p "$work/said" | grep -q '^replay: proving and building the program, [1-9][0-9]* crates: ' &&
        ! sed 1d "$work/said" | grep -qvE '^replay: [a-z_]+ proved \([0-9]+ s\)$' || { cat "$work/said"; return 1; }
}

# The program is made to look old.
true_kit() {
    touch -t 200001010000 crates/replay/out/replay
    printf '\003' >"$work/bytes"
    bin/replay <"$work/bytes" >"$work/out" 2>"$work/said"
    built_so $? || return 1
    bin/replay <"$work/bytes" >"$work/out" 2>"$work/said"
    [ $? -eq 0 ] && [ ! -s "$work/said" ] || { cat "$work/said"; return 1; }
}

# On a copy, where there is no program yet, and then none any more, though the kit's stamp says that there is.
lost_program() {
    copy=$work/lost
    mkdir -p "$copy" && cp -R bin crates.txt "$copy" && copy_crates "$copy" || return 1
    printf '\003' >"$work/bytes"
    "$copy/bin/replay" <"$work/bytes" >"$work/out" 2>"$work/said"
    built_so $? && [ "$(tail -n 1 "$work/said" | cut -d ' ' -f 1-3)" = 'replay: replay proved' ] || { cat "$work/said"; return 1; }
    true >"$copy/crates/replay/out/replay"
    "$copy/bin/replay" <"$work/bytes" >"$work/out" 2>"$work/said"
    built_so $? && [ -s "$copy/crates/replay/out/replay" ]
}

if command -v rt >/dev/null; then
    tell "bin/replay with the true kit" true_kit
    tell "bin/replay with the true kit and a lost program" lost_program
else
    pass_over "bin/replay with the true kit" "it is not on this machine"
fi
