# Reads the items of .ci/items and then docs/REFERENCE.md, and holds one to the other: see .ci/reference.
# An item's home is MODULE::NAME, where it is written; its public paths are those by which another crate can name it.

FNR == 1 { files++ }

# ---- the items

files == 1 && $1 == "mod" {
    is_module[$4 "::" $5] = 1
    if ($2 == "pub") modules[$4] = modules[$4] " " $5
}

files == 1 && $1 == "use" {
    used[$4, $5] = $6
    if ($2 == "pub") uses[$4] = uses[$4] " " $5
}

files == 1 && $1 != "mod" && $1 != "use" && $2 == "pub" {
    kind[$4 "::" $5] = $1
    items[$4] = items[$4] " " $5
    place[$4 "::" $5] = $3
}

files == 1 {
    crate = $4
    sub(/::.*/, "", crate)
    if (!(crate in is_crate)) listed[++crates] = crate
    is_crate[crate] = 1
    if ($3 ~ /\/src\/main\.rt:/) is_program[crate] = 1
    next
}

# ---- the public paths, from each library's root on

# The home, or the module, that a path leads to from a module; "" if it leads nowhere. For a name in the middle of a path modules come
# first, and for the last name items.
function leads_to(path, module, rounds,    first, rest, at) {
    if (rounds > 20) return ""
    first = rest = path
    sub(/::.*/, "", first)
    if (first == path) {
        if ((module "::" path) in kind) return module "::" path
        if ((module, path) in used && used[module, path] != path) return leads_to(used[module, path], module, rounds + 1)
        return (module "::" path) in is_module ? module "::" path : ""
    }
    rest = substr(path, length(first) + 3)
    at = module
    if (first == "crate") sub(/::.*/, "", at)
    else if (first == "super") sub(/::[^:]*$/, "", at)
    else if ((module "::" first) in is_module) at = module "::" first
    else if ((module, first) in used && used[module, first] != path) at = leads_to(used[module, first], module, rounds + 1)
    else if (first in is_crate) at = first
    else if (first != "self") return ""
    return leads_to(rest, at, rounds + 1)
}

function tell(path, home) {
    public[path] = home
    if (kind[home] != "fn") return
    if (!(home in paths)) order[++functions] = home
    paths[home] = paths[home] " " path
}

# An item by a path; with a type, its methods and variants.
function bring(path, home,    module, name, n, i, list) {
    tell(path, home)
    module = name = home
    sub(/::[^:]*$/, "", module)
    name = substr(home, length(module) + 3)
    n = split(items[module], list, " ")
    for (i = 1; i <= n; i++) if (index(list[i], name "::") == 1) tell(path substr(list[i], length(name) + 1), module "::" list[i])
}

# All that a module shows, by its public path. A function may have the same path as a module.
function show(path, module,    n, i, list, home) {
    if (!(path in public)) public[path] = module
    n = split(items[module], list, " ")
    for (i = 1; i <= n; i++) tell(path "::" list[i], module "::" list[i])
    n = split(modules[module], list, " ")
    for (i = 1; i <= n; i++) show(path "::" list[i], module "::" list[i])
    n = split(uses[module], list, " ")
    for (i = 1; i <= n; i++) {
        home = leads_to(used[module, list[i]], module, 0)
        if (home in kind) bring(path "::" list[i], home)
        else if (home in is_module) show(path "::" list[i], home)
        else complain(path ": it is not known where `pub use " used[module, list[i]] "` leads")
    }
}

function complain(why) {
    print "reference: " why
    complaints++
}

# ---- the document

files == 2 && FNR == 1 {
    for (k = 1; k <= crates; k++) if (!(listed[k] in is_program)) show(listed[k], listed[k])
}

{
    line = $0
    while (match(line, /[A-Za-z_][A-Za-z_0-9]*(::[A-Za-z_][A-Za-z_0-9]*)+/)) {
        path = substr(line, RSTART, RLENGTH)
        line = substr(line, RSTART + RLENGTH)
        crate = path
        sub(/::.*/, "", crate)
        if (!(crate in is_crate) || (crate in is_program)) continue
        if (path in public) named[public[path]] = 1
        else complain(FILENAME ":" FNR ": " path " is no public path")
    }
}

END {
    if (files < 2) complain("the document is empty")
    for (k = 1; k <= functions; k++) {
        home = order[k]
        n = split(paths[home], list, " ")
        if (n > 1) twice++
        if (home in named) continue
        missed++
        names = list[1]
        for (i = 2; i <= n; i++) names = names " or " list[i]
        complain(place[home] ": " names " is not named")
    }
    if (complaints || !functions) {
        printf "reference: refused; public functions: %d, not named: %d\n", functions, missed
        exit 1
    }
    printf "reference: %d public functions, each named; %d of them have more than one public path\n", functions, twice
}
