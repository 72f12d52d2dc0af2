# .ci/reference on a planted repository: what is public and not named is told, and so is a path that leads nowhere.
# shellcheck shell=sh

plant_paths() {
    rm -rf "$work/planted"
    mkdir -p "$work/planted/crates/one/src" "$work/planted/crates/two/src" "$work/planted/crates/run/src" "$work/planted/docs"
    printf 'one:\ntwo: one\nrun: one two\n' >"$work/planted/crates.txt"
    cat >"$work/planted/crates/one/src/lib.rt" <<'RT'
mod hidden;
mod tick;
pub mod shown;
pub use crate::hidden::brought;
pub use hidden::Cell;
pub use hidden::{other as renamed, LIMIT};
pub use tick::tick;
pub fn plain() {}
RT
    cat >"$work/planted/crates/one/src/hidden.rt" <<'RT'
pub const LIMIT: u8 = 4;
pub struct Cell {
    pub value: u8,
}
impl Cell {
    pub fn get(self) -> u8 { self.value }
}
pub fn brought() {}
pub fn other() {}
pub fn kept() {}
RT
    echo 'pub fn tick() {}' >"$work/planted/crates/one/src/tick.rt"
    echo 'pub fn here() {} pub(crate) fn not_here() {} pub enum Event { Tick, Set(u8) }' >"$work/planted/crates/one/src/shown.rt"
    printf 'pub use one::plain;\npub use one::shown;\npub fn own() {}\n' >"$work/planted/crates/two/src/lib.rt"
    printf 'pub fn unseen() {}\nfn main() {}\n' >"$work/planted/crates/run/src/main.rt"
    cat >"$work/planted/docs/REFERENCE.md" <<'MD'
| `one::plain() -> u8` | `one::brought(c)`, `one::Cell`, `one::Cell::get` |
| `one::renamed`, `one::LIMIT` | `one::tick` and one::shown::here, `one::shown::Event::Set(5)`, `one::shown` |
| `two::own` | `std::num::wrapping_add_u32`, `io::count` and `run::unseen` are of others |
MD
}

all_named() {
    plant_paths
    status_of .ci/reference "$work/planted"
    echo 'reference: 7 public functions, each named; 2 of them have more than one public path' >"$work/wanted"
    [ "$status" -eq 0 ] && cmp -s "$work/wanted" "$work/out" || shown "not accepted"
}

# The document without a path says that this function is not named.
not_named() {
    for paths in one::plain' or two::plain' one::brought one::Cell::get one::renamed one::tick \
        one::shown::here' or two::shown::here' two::own; do
        path=${paths%% *}
        plant_paths
        sed "s/$path\([^:a-z_]\)/one\1/" "$work/planted/docs/REFERENCE.md" >"$work/less" && cp "$work/less" "$work/planted/docs/REFERENCE.md"
        status_of .ci/reference "$work/planted"
        [ "$status" -eq 1 ] && grep -q ": $paths is not named\$" "$work/out" &&
            grep -qx 'reference: refused; public functions: 7, not named: 1' "$work/out" || shown "$paths" || return 1
    done
}

leads_nowhere() {
    for path in one::hidden::brought one::other one::kept one::shown::not_here one::shown::Event::Tock one::Cell::put one::plain::more \
        two::nothing; do
        plant_paths
        echo "so \`$path\`" >>"$work/planted/docs/REFERENCE.md"
        status_of .ci/reference "$work/planted"
        [ "$status" -eq 1 ] && grep -qx "reference: docs/REFERENCE.md:4: $path is no public path" "$work/out" || shown "$path" || return 1
    done
}

nothing_there() {
    plant_paths
    : >"$work/planted/docs/REFERENCE.md"
    status_of .ci/reference "$work/planted"
    [ "$status" -eq 1 ] || shown "an empty document" || return 1
    rm "$work/planted/docs/REFERENCE.md"
    status_of .ci/reference "$work/planted"
    [ "$status" -eq 2 ] || shown "no document"
}

tell_awks "reference: every public path" all_named
tell_awks "reference: functions that are not named" not_named
tell_awks "reference: paths that lead nowhere" leads_nowhere
tell_awks "reference: no document" nothing_there
