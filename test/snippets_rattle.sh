# The snippets in Rattle are put into one crate, `mine`, over the crates that are proved, and are proved
# there: some 20 s where the kit keeps what it proved of these.
# shellcheck shell=sh
. test/snippets.lib

# A repository in which `mine` is the only crate that is not proved yet. `rt check` builds those below it
# first, over what the kit keeps of them.
snippets_crate() {
    mine=$work/rattle/crates/mine
    rm -rf "$work/rattle"
    mkdir -p "$mine/src" && cp crates.txt "$work/rattle" && copy_crates "$work/rattle" || return 1
    echo 'mine: state clock request event label record summary' >>"$work/rattle/crates.txt"
    : >"$work/modules"
    for form in $(forms_of rattle); do
        read -r _ module <"$form.kind"
        filled "$form" uses >"$mine/src/$module.rt"
        [ "$module" = main ] || echo "mod $module;" >>"$work/modules"
    done
    { echo '#![tactic(auto)]' && cat "$mine/src/main.rt" "$work/modules"; } >"$work/main.rt" &&
        mv "$work/main.rt" "$mine/src/main.rt" || return 1
}

snippets_proved() {
    find_snippets && snippets_crate || return 1
    (cd "$mine" && rt check) >"$work/checked" 2>&1 && grep -q '^logic=proved' "$work/checked" ||
        { grep -E 'error|not proved|no proof' "$work/checked" | cut -c 1-300; return 1; }
}

if ! command -v rt >/dev/null; then
    pass_over "the snippets in Rattle" "rt is not on this machine"
else
    tell "the snippets in Rattle are proved" snippets_proved
fi
