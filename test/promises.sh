# .ci/promises on a planted repository: a name, a theorem, a statement or a lie that is gone is told, and so
# is one that has no row.
# shellcheck shell=sh

promised=$work/promised

plant_promises() {
    rm -rf "$promised"
    for folder in specs proofs src must-fail lies; do mkdir -p "$promised/crates/one/$folder"; done
    mkdir -p "$promised/crates/two/src" "$promised/crates/two/proofs" "$promised/docs" "$promised/examples"
    printf 'one:\ntwo: one\n' >"$promised/crates.txt"
    cat >"$promised/crates/one/specs/Said.antt" <<'ANTT'
-- what is told
abbrev pub told : ℕ → ℕ
told n = n

pub record Always : Type 0 where
  pub first : told 0 ≡ 0

pub data Found : Type 0 where

abbrev pub Keeps : (ℕ → ℕ) → Type 0
Keeps f = f 0 ≡ 0
ANTT
    echo 'abbrev pub other : ℕ' >"$promised/crates/one/specs/More.antt"
    cat >"$promised/crates/one/proofs/Law.antt" <<'ANTT'
pub always : Always
always = record { first = refl }

module _ (n : ℕ) where
  pub long : (m : ℕ)
      → told m ≡ m  -- which is plain
  long m = refl

pub found : Found
ANTT
    printf 'pub fn call() -> u8 {}\nfn within() {}\n' >"$promised/crates/one/src/lib.rt"
    echo 'pub use one::call;' >"$promised/crates/two/src/lib.rt"
    printf 'pub same : Always\nsame = always\n' >"$promised/crates/two/proofs/Law.antt"
    for lie in must-fail/call_wrong lies/never lies/not_found; do echo '# It is wrong.' >"$promised/crates/one/$lie.edit"; done
    mkdir -p "$promised/crates/two/lies"
    echo '# It is wrong.' >"$promised/crates/two/lies/other_same.edit"
    echo 5 >"$promised/examples/day.txt"
    cat >"$promised/docs/PROMISES.md" <<'MD'
# What is promised

`told` and `Always` in `one/specs/Said.antt`, its field `first`; `other` in `one/specs/More.antt`; `two::call`, `within`, `day`, the edits of
`one/lies/`, `not_..`, `Law`, `Said.antt`, `crates/NAME/lies/`, `0 n`, `told 0`, `always : Always`.

    `nothing` is looked up here

## The theorems

| Theorem | Statement | Where | The lie |
|---|---|---|---|
| `always` | `Always` | `one/proofs/Law.antt` | `never` |
| `long` | `(m : ℕ) → told m ≡ m` | `one/proofs/Law.antt` | |
| `same` | `Always` | `two/proofs/Law.antt` | `other_same` |

## What the prover refuses

| Promise | From nothing | Over what is proved |
|---|---|---|
| `two::call` | `call_wrong` | `not_found` |
| the rest | | `never`, all of `two/lies/` |
MD
}

# Puts another text in the place of one, in a file of the planted repository.
change() { # FILE OLD NEW
    OLD=$2 NEW=$3 awk '{ at = index($0, ENVIRON["OLD"]); if (at) $0 = substr($0, 1, at - 1) ENVIRON["NEW"] substr($0, at + length(ENVIRON["OLD"])); print }' \
        "$promised/$1" >"$work/changed" && ! cmp -s "$work/changed" "$promised/$1" && cp "$work/changed" "$promised/$1"
}

# Whether the planted repository is refused with this fault.
misses() { # FAULT
    status_of .ci/promises "$promised"
    [ "$status" -eq 1 ] && grep -qF "promises: $1" "$work/out" || shown "not missed: $1"
}

promises_kept() {
    plant_promises
    status_of .ci/promises "$promised"
    echo 'promises: 3 theorems with their statements, 1 public functions and 4 lies; every name is found' >"$work/wanted"
    [ "$status" -eq 0 ] && cmp -s "$work/wanted" "$work/out" || shown "not accepted"
}

# A change of the repository that the page does not say.
promises_lost() {
    while IFS='|' read -r file old new fault; do
        plant_promises
        change "$file" "$old" "$new" && misses "$fault" || { echo "$file: $old, $new"; return 1; }
    done <<'ROWS'
crates/one/proofs/Law.antt|pub always : Always|pub always : Found|docs/PROMISES.md:12: `always` in crates/one/proofs/Law.antt does not say `Always`: its type there is another
crates/one/proofs/Law.antt|told m ≡ m|told m ≡ told m|docs/PROMISES.md:13: `long` in crates/one/proofs/Law.antt does not say `(m : ℕ) → told m ≡ m`
crates/one/proofs/Law.antt|pub always :|pub ever :|docs/PROMISES.md:12: there is no theorem `always` in crates/one/proofs/Law.antt
crates/one/proofs/Law.antt|pub found : Found|pub again : Always|crates/one/proofs/Law.antt: `again` is in no row under "The theorems" of docs/PROMISES.md; add: | `again` | `Always` | `one/proofs/Law.antt` |
crates/one/proofs/Law.antt|pub found : Found|pub kept : Keeps told|crates/one/proofs/Law.antt: `kept` is in no row under "The theorems"
crates/one/proofs/Law.antt|pub found : Found|pub kept : Keeps (λ n. n)|crates/one/proofs/Law.antt: `kept` says `Keeps` of something without a name: define it in specs/
crates/one/specs/Said.antt|record Always|record Ever|docs/PROMISES.md:3: `Always` is no definition
crates/one/specs/Said.antt|abbrev pub told|abbrev pub tell|docs/PROMISES.md:3: `told` is no definition
crates/one/specs/Said.antt|pub first|pub last|docs/PROMISES.md:3: `first` is no definition
crates/one/src/lib.rt|fn within|fn without|docs/PROMISES.md:3: `within` is no definition
crates/one/src/lib.rt|fn within|pub fn open|crates/one: open has no row under "What the prover refuses"
crates.txt|two: one||docs/PROMISES.md:14: there is no theorem `same` in crates/two/proofs/Law.antt
ROWS
    for row in \
        'crates/one/must-fail/call_wrong.edit|docs/PROMISES.md:20: `call_wrong` is no definition' \
        'crates/one/lies/not_found.edit|docs/PROMISES.md:20: `not_found` is no definition' \
        'examples/day.txt|docs/PROMISES.md:3: `day` is no definition' \
        'crates/two|docs/PROMISES.md:14: there is no theorem `same` in crates/two/proofs/Law.antt' \
        'crates/two/lies|docs/PROMISES.md:21: there is no two/lies/'; do
        plant_promises
        rm -r "$promised/${row%%|*}"
        misses "${row#*|}" || return 1
    done
}

# A page that does not say what there is.
promises_unsaid() {
    while IFS='|' read -r old new fault; do
        plant_promises
        change docs/PROMISES.md "$old" "$new" && misses "$fault" || { echo "$old, $new"; return 1; }
    done <<'ROWS'
`call_wrong` |`never` |crates/one: call has no row under "What the prover refuses" of docs/PROMISES.md with a lie of crates/one/must-fail/
 `not_found` ||crates/one/lies/not_found.edit: it is not named under "What the prover refuses"
all of `two/lies/`|more|crates/two/lies/other_same.edit: it is not named
`other` in `one/specs/More|`other` in `one/specs/Said|docs/PROMISES.md:3: `other` is not in `one/specs/Said.antt`
`told` and `Always` in `one/specs/Said|`told` and `Always` in `one/specs/More|docs/PROMISES.md:3: `told` is not in `one/specs/More.antt`
`two::call`, `within`|`two::shout`, `within`|docs/PROMISES.md:3: `two::shout` is no item of the code
`not_..`|`nor_..`|docs/PROMISES.md:4: no name begins with `nor_`
`always : Always`|`always : Found`|docs/PROMISES.md:4: no theorem is `always : Found`
`told 0`|`tell 0`|docs/PROMISES.md:4: `tell` is no definition
`told 0`|`told 0|docs/PROMISES.md:4: a name in `..` goes over the end of the line
`one/lies/`|`one/tales/`|docs/PROMISES.md:4: there is no one/tales/
## The theorems|## Theorems|docs/PROMISES.md: it has no table under "The theorems"
ROWS
}

# Of this repository too: no crate can go with its line.
no_crate_can_go() {
    rm -rf "$promised"
    mkdir -p "$promised"
    cp -R crates.txt docs examples c bench test .ci bin "$promised/" && copy_crates "$promised" || return 1
    status_of .ci/promises "$promised"
    [ "$status" -eq 0 ] || shown "not accepted" || return 1
    rm -r "$promised/crates/rig_bounds"
    sed '/^rig_bounds:/d' crates.txt >"$promised/crates.txt"
    misses 'docs/PROMISES.md' && grep -q 'there is no theorem `demand3_of_rig` in crates/rig_bounds/proofs/Theorem.antt' "$work/out"
}

tell_awks "promises: all that is there" promises_kept
tell_awks "promises: what is lost" promises_lost
tell_awks "promises: what is not said" promises_unsaid
tell "promises: no crate can go" no_crate_can_go
