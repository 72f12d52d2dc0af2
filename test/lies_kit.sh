# .ci/lies with the kit itself, on a crate of one function.
# shellcheck shell=sh

# The kit itself refuses a lie, proves its twin, and gives a definition that can't be read the verdict that
# must not count.
lies_of_the_kit() {
    liar=$work/liar_of_the_kit
    mkdir -p "$liar/.ci" "$liar/tmp" "$liar/crates/one/src" "$liar/crates/one/specs"
    cp .ci/lies .ci/edits.sh "$liar/.ci/"
    echo 'one:' >"$liar/crates.txt"
    echo 'pub mod Said' >"$liar/crates/one/specs/Lib.antt"
    printf 'use Rattle.std.specs.Prelude.{ℕ, ◌+◌}\n\nabbrev pub seven : ℕ\nseven = 7\n' >"$liar/crates/one/specs/Said.antt"
    cat >"$liar/crates/one/src/lib.rt" <<'CODE'
#![tactic(auto)]

ghost use Rattle.std.specs.Prelude.{◌≡◌};
ghost use Rattle.one.specs.Said.{seven};

pub fn told() -> usize
    ensures { result ≡ seven }
{
    7
}
CODE
    mkdir -p "$liar/crates/one/lies" "$liar/crates/one/harmless"
    printf '# Eight is told.\nfile: src/lib.rt\nold:     7\nnew:     8\n' >"$liar/crates/one/lies/eight.edit"
    printf '# Seven is a sum.\nfile: specs/Said.antt\nold: seven = 7\nnew: seven = 3 + 4\n' >"$liar/crates/one/harmless/six.edit"
    printf '# Seven is six.\nfile: specs/Said.antt\nold: seven = 7\nnew: seven = 6\n' >"$liar/crates/one/lies/six.edit"
    printf '# Seven is not closed.\nfile: specs/Said.antt\nold: seven = 7\nnew: seven = (7\n' >"$liar/crates/one/lies/open.edit"
    printf '# Seven is of no crate.\nfile: src/lib.rt\nold:     7\nnew:     none::seven()\n' >"$liar/crates/one/lies/uncoded.edit"
    TMPDIR=$liar/tmp timeout 600 "$liar/.ci/lies" >"$work/out" 2>"$work/said"
    status=$?
    [ "$status" -eq 1 ] && [ "$(tail -n 1 "$work/out")" = '5 passed, 2 failed' ] && [ -z "$(ls "$liar/tmp")" ] &&
        grep -q 'one/lies/open: BAD EDIT' "$work/out" && grep -q 'one/lies/uncoded: BAD EDIT' "$work/out" || shown "with the kit"
}

tell "lies: with the kit" lies_of_the_kit
