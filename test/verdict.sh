# The second implementation agrees with the first, by the program's own count and not by a stored output alone: over as many cases, in as
# many groups, as README.md says that it has, so that fewer are noticed.
# shellcheck shell=sh

# The number of cases and of groups that README.md owes, without commas.
owed() {
    sed -n 's/.*run beside the first over \([0-9,]*\) cases in \([0-9]*\) groups.*/\1 \2/p' README.md | tr -d ,
}

agrees() {
    # shellcheck disable=SC2046
    set -- $(owed)
    [ $# -eq 2 ] || { echo "README.md does not say once how many cases in how many groups there are"; return 1; }
    crates/cross_check/out/cross_check >"$work/lines" 2>"$work/said" || return 1
    tail -n 1 "$work/lines" | grep -qx "cross_check: $1 of $1 cases in $2 groups, 0 differ: the two agree" ||
        { tail -n 1 "$work/lines"; return 1; }
}

tell "the two implementations" agrees
