# The reader with a loop that bench/run measures beside the repository's own: its patch applies, and it is proved by the same contract.
# shellcheck shell=sh

loop_reader() {
    copy=$work/loop_reader
    copy_crates "$copy" integers state number || return 1
    rm -r "$copy/crates/number/src/decode.rt" "$copy/crates/number/proofs/decode"
    patch -s -p1 -d "$copy" <bench/loop_reader.patch || return 1
    grep -E '^(integers|state|number):' crates.txt >"$copy/crates.txt"
    grep -qF 'ensures { told result ≡ number_at bytes.now at }' "$copy/crates/number/src/decode.rt" || { echo "another contract"; return 1; }
    (cd "$copy/crates/number" && rt check) >"$work/told_by_rt" 2>&1 && grep -q '^logic=proved' "$work/told_by_rt" ||
        { grep -a -e error -e 'not proved' "$work/told_by_rt" | cut -c 1-300; return 1; }
}

if ! command -v rt >/dev/null; then
    pass_over "the reader with a loop" "the kit is not on this machine"
elif ! command -v patch >/dev/null; then
    pass_over "the reader with a loop" "patch is not on this machine"
else
    tell "the reader with a loop" loop_reader
fi
