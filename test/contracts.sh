# .ci/contracts on planted crates: each public function that no definition promises, or that has a requires, is refused, and no other.
# shellcheck shell=sh

# A repository of one listed library, whose root is standard input, with some definitions that it brings, and a crate that is not listed.
plant() { # ROOT-FILE
    rm -rf "$work/planted"
    mkdir -p "$work/planted/crates/one/src" "$work/planted/crates/one/specs" "$work/planted/crates/unlisted/src" "$work/planted/docs"
    echo 'one staticlib: # the only one' >"$work/planted/crates.txt"
    {
        cat
        echo 'ghost use Rattle.one.specs.Said.{pair, same, most, told, Related, Small, Kept};'
        echo 'ghost use Rattle.one.specs.Inner.{within};'
        echo 'ghost use Rattle.one.proofs.Laws.{law};'
        echo 'ghost use Rattle.std.specs.Prelude.{length};'
    } >"$work/planted/crates/one/src/$1"
    cat >"$work/planted/crates/one/specs/Said.antt" <<'ANTT'
abbrev pub pair : ℕ → List ℕ
unfoldable pub same : ℕ → ℕ
abbrev pub most : ℕ
abbrev pub told : ℕ → ℕ
pub record Related (x r : ℕ) : Type 0 where
pub data Kept (x : ℕ) : Type 0 where
abbrev pub Small : ℕ → Type 0
abbrev hidden : ℕ
ANTT
    echo 'abbrev pub within : ℕ → ℕ' >"$work/planted/crates/one/specs/Inner.antt"
    echo 'pub fn unseen() {}' >"$work/planted/crates/unlisted/src/lib.rt"
}

# Whether the planted crate is refused, with this one complaint.
complains() { # COMPLAINT
    status_of .ci/contracts "$work/planted"
    [ "$status" -eq 1 ] && [ "$(grep -c ' is public and ' "$work/out")" -eq 1 ] &&
        grep -qxF "contracts: crates/one/src/$1" "$work/out" || shown "not so: $1"
}

sound_functions='
#![tactic(auto)]

pub fn sound(x: u8) -> [u8; 2]
    ensures { result ≡ pair x { x } }
{
    let brace = b"}";
    [x, x]
}

fn private(x: u8) -> u8
    requires { x < 9 }
{
    x
}

pub(crate) fn within(x: u8) -> u8
    requires { x < 9 }
{
    x
}
'

accepted() {
    { printf '%s' "$sound_functions"; echo '// pub fn only_said() {}'; echo '/* pub fn said_too() {} */'; } | plant lib.rt
    status_of .ci/contracts "$work/planted"
    echo 'contracts: 1 public functions, each promised by the definitions of specs/ and none with a requires' >"$work/wanted"
    [ "$status" -eq 0 ] && cmp -s "$work/wanted" "$work/out" || shown "not accepted"
}

no_ensures() {
    { printf '%s' "$sound_functions"; printf 'pub fn bare(x: u8) -> u8 {\n    x\n}\n'; } | plant lib.rt
    complains 'lib.rt:22: bare is public and has no ensures'
}

# The word in a comment, a string or another function's clause is no clause.
only_a_comment() {
    plant lib.rt <<'RT' && complains 'lib.rt:3: bare is public and has no ensures' || return 1
// It ensures { that nothing is said }.
// ensures { result ≡ x }
pub fn bare(x: u8) -> u8 // ensures { result ≡ x }
/* ensures { result ≡ x } */
{
    let said = b"ensures { }";
    x
}

fn next(x: u8) -> u8
    ensures { result ≡ x }
{
    x
}
RT
    plant lib.rt <<'RT' && complains 'lib.rt:2: bare is public and has no ensures'
const WORD: &[u8] = b"{ \" //";
pub fn bare(x: u8) -> u8 { let quote = b'"'; let open = b'{'; x }
pub fn sound(x: u8) -> u8 ensures { result ≡ same x } { let quote = b'\''; x }
RT
}

with_requires() {
    plant lib.rt <<'RT' && complains 'lib.rt:1: asks is public and has a requires' || return 1
pub fn asks(x: u8) -> u8
    requires { x < 9 }
    ensures { result ≡ same x }
{
    x
}
RT
    plant lib.rt <<'RT' && complains 'lib.rt:1: asks is public and has a requires'
pub fn asks(x: u8) -> u8 ensures same { result ≡ same x } requires
small { x < 9 } { x }
RT
}

exported() {
    plant lib.rt <<'RT' && complains 'lib.rt:2: given is public and has no ensures' || return 1
#[unsafe(no_mangle)]
pub extern "C" fn given(x: u8) -> u8 {
    x
}
RT
    plant lib.rt <<'RT' && complains 'lib.rt:2: given is public and has a requires' || return 1
#[unsafe(no_mangle)]
pub extern "C" fn given(x: u8) -> u8
    requires { x < 9 }
    ensures { result ≡ same x }
{
    x
}
RT
    plant lib.rt <<'RT' && complains 'lib.rt:1: given is public and has no ensures'
extern "C" fn given(x: u8) -> u8 {
    x
}
RT
}

methods() {
    plant lib.rt <<'RT' && complains 'lib.rt:12: Cell::bare is public and has no ensures'
pub struct Cell {
    pub value: u8,
}

impl Cell {
    pub fn sound(self) -> u8
        ensures { result ≡ same self.value }
    {
        self.value
    }

    pub fn bare(self) -> u8 {
        self.value
    }
}
RT
}

# A file that a private module names, and a program.
elsewhere() {
    echo 'mod inner;' | plant lib.rt
    printf 'pub fn bare() {}\n' >"$work/planted/crates/one/src/inner.rt"
    complains 'inner.rt:1: bare is public and has no ensures' || return 1
    printf 'pub fn bare() {}\nfn main() {}\n' | plant main.rt
    complains 'main.rt:1: bare is public and has no ensures'
}

# To see nothing is no success.
nothing_seen() {
    echo 'fn private() {}' | plant lib.rt
    status_of .ci/contracts "$work/planted"
    [ "$status" -eq 1 ] || shown "no public function" || return 1
    echo >"$work/planted/crates.txt"
    status_of .ci/contracts "$work/planted"
    [ "$status" -eq 2 ] || shown "no crate"
}

# A file that is not understood is no success either.
not_understood() {
    printf 'pub fn sound()\n    ensures { result ≡ x \n{\n}\n' | plant lib.rt
    status_of .ci/contracts "$work/planted"
    refused_with 2 'items: it is not understood: crates/one/src/lib.rt'
}

# Each form that a contract may have, one function each.
honest_forms() {
    plant lib.rt <<'RT'
pub fn a(x: u8) -> u8 ensures { result ≡ (length (pair (x / most))).0 } { x }
pub fn b(x: u8) -> u8 ensures { told result ≡ same x } { x }
pub fn c(x: u8) -> u8 ensures related { Related x result } ensures least { result.0 ≤ x } { x }
pub fn d(x: &mut u8) -> u8
    ensures { (result ≡ same x.old)
        × (x.new ≡ (same x.old).0)
        × Kept result.0 x.new }
{ 0 }
pub fn e(x: &mut [u8], y: &[u8]) ensures { Related x.old x.new } { }
pub fn f() -> u8 ensures value { result ≡ most } ensures constant { MOST ≡ most } { 4 }
RT
    status_of .ci/contracts "$work/planted"
    [ "$status" -eq 0 ] && grep -q '^contracts: 6 public functions, ' "$work/out" || shown "not accepted"
}

# A contract that could be of any function, or that no definition carries.
empty_forms() {
    while IFS='|' read -r head clauses why; do
        printf 'pub fn asks%s %s { x }\n' "$head" "$clauses" | plant lib.rt
        complains "lib.rt:1: asks is public and $why" || return 1
    done <<'ROWS'
(x: u8) -> u8|ensures { result ≡ result }|says of a thing that it is itself: result ≡ result
(x: u8) -> u8|ensures { same x ≡ same x }|says of a thing that it is itself: same x ≡ same x
(x: u8) -> u8|ensures { result ≡ same result }|says nothing of its result but by itself: result ≡ same result
(x: u8) -> u8|ensures { told result ≡ same result.0 }|says nothing of its result but by itself: told result ≡ same result.0
(x: u8) -> u8|ensures value { result ≡ same x } ensures least { result ≤ result }|says nothing of its result but by itself, or does not name it: result ≤ result
(x: u8) -> u8|ensures { result ≤ result }|says nothing of its result but by itself, or does not name it: result ≤ result
(x: u8) -> u8|ensures { x < 9 }|says nothing of its result but by itself, or does not name it: x < 9
(x: u8) -> u8|ensures { result ≤ x }|says by no definition of specs/ what its result is
(x: u8) -> u8|ensures { Small result }|says nothing of its result but by itself: Small result
(x: u8) -> u8|ensures { Small x }|does not name its result: Small x
(x: u8) -> u8|ensures { Related x result.0 }|says by no definition of specs/ what its result is
(x: u8) -> u8|ensures { same x ≡ most }|promises neither its result, whole, nor what remains of a thing lent, nor a constant: same x ≡ most
(x: u8) -> u8|ensures { result.0 ≡ same x }|promises neither its result, whole, nor what remains of a thing lent, nor a constant: result.0 ≡ same x
(x: u8) -> u8|ensures { result ≡ x }|says by no definition of specs/ what a thing is: result ≡ x
(x: u8) -> u8|ensures { result ≡ 0 }|says by no definition of specs/ what a thing is: result ≡ 0
(x: u8) -> u8|ensures { result ≡ law x }|says by no definition of specs/ what a thing is: result ≡ law x
(x: u8) -> u8|ensures { result ≡ within x }|says by no definition of specs/ what a thing is: result ≡ within x
(x: u8) -> u8|ensures { result ≡ hidden }|says by no definition of specs/ what a thing is: result ≡ hidden
(x: u8) -> u8|ensures { result ≡ length x }|says by no definition of specs/ what a thing is: result ≡ length x
(most: u8) -> u8|ensures { result ≡ most }|says by no definition of specs/ what a thing is: result ≡ most
(x: u8) -> u8|ensures { (result ≡ same x) × (result ≡ result) }|says of a thing that it is itself: result ≡ result
(x: u8) -> u8|ensures { result ≡ result → result ≡ same x }|has a promise that is no equation, no order and no relation of specs/: result ≡ result → result ≡ same x
(x: u8) -> u8|ensures same { result ≡ same x } ensures* kept { emp }|has a clause with a star, which is of memory: emp
(x: u8) -> u8|ensures* { emp }|has a clause with a star, which is of memory: emp
(x: u8) -> u8|ensures { emp }|has a promise that is no equation, no order and no relation of specs/: emp
(result: u8)|ensures { Related most result }|has a parameter named result
(x: u8) -> u8|ensures { MOST ≡ most }|says by no definition of specs/ what its result is
(x: u8) -> u8|ensures { ⊤ }|has a promise that is no equation, no order and no relation of specs/: ⊤
(x: &mut u8) -> u8|ensures { result ≡ same x.old }|does not say what remains of x
(x: &mut u8) -> u8|ensures { x.new ≡ most }|says by no definition of specs/ what its result is
(x: &mut u8) -> u8|ensures { x.new ≡ x.new }|says of a thing that it is itself: x.new ≡ x.new
ROWS
}

# In the layout of `rt fmt` a plain search finds the public functions too.
as_many_as_found() {
    found=0
    for name in $(sed -n 's/^\([a-z_0-9]*\)[^:]*:.*/\1/p' crates.txt); do
        found=$((found + $(cat crates/"$name"/src/*.rt | grep -c '^ *pub \(extern "C" \)\{0,1\}fn ')))
    done
    status_of .ci/contracts
    grep -q "^contracts: $found public functions, " "$work/out" || shown "a search finds $found"
}

tell_awks "contracts: sound functions" accepted
tell_awks "contracts: no ensures" no_ensures
tell_awks "contracts: an ensures in words alone" only_a_comment
tell_awks "contracts: a requires" with_requires
tell_awks "contracts: every form of a promise" honest_forms
tell_awks "contracts: promises that say nothing" empty_forms
tell_awks "contracts: functions for C" exported
tell_awks "contracts: methods" methods
tell_awks "contracts: private modules and programs" elsewhere
tell_awks "contracts: nothing to be seen" nothing_seen
tell_awks "contracts: a file that is not understood" not_understood
tell "contracts: as many functions as a search finds" as_many_as_found
