# Reads the names of .ci/names and then docs/PROMISES.md, and prints what .ci/promises tells: lines 'fault
# PLACE WHY', 'path PLACE PATH' of the paths to be looked up, and 'count' with a sentence, with a tab between.

BEGIN {
    FS = "\t"
    # words of the language, of the kit, and of the output of a replay
    known["ensures"] = known["requires"] = known["rt"] = known["log"] = 1
}

FNR == 1 { files++ }

# ---- what there is

files == 1 {
    known[$2] = 1
    in_file[$2, $3] = 1
    if ($1 == "theorem" || $1 == "law") type[$2, $3, $4] = is_type[$2, $4] = 1
    if ($1 == "definition") is_defined[$2] = 1
    if ($4 == "statement") is_statement[$2] = 1
    if ($4 == "family") is_family[$2] = 1
    if ($1 == "theorem") {
        theorem[++theorems] = $2
        statement[theorems] = $4
        where[theorems] = $3
    }
    if ($1 == "function" || $1 == "must-fail" || $1 == "lies") {
        crate = $3
        sub(/^crates\//, "", crate)
        sub(/\/.*/, "", crate)
    }
    if ($1 == "function") {
        function_name[++functions] = $2
        function_crate[functions] = crate
    }
    if ($1 == "must-fail") is_tried[$2, crate] = 1
    if ($1 == "must-fail" || $1 == "lies") {
        is_kept[$2, crate] = 1
        edit[++edits] = $2
        folder[edits] = crate "/" $1 "/"
    }
    next
}

function fault(place, why) { print "fault\t" place "\t" why }

# ---- names in the text

# One name of the text, between backticks.
function look_up(name, place,    first) {
    if (name ~ /NAME/ || name ~ /^[0-9]/) return
    if (name ~ / : /) {
        first = name
        sub(/ : .*/, "", first)
        sub(/^[^ ]+ : /, "", name)
        if (!((first, name) in is_type)) fault(place, "no theorem is `" first " : " name "`")
        return
    }
    sub(/ .*/, "", name)
    if (name ~ /::/) {
        first = name
        sub(/::.*/, "", first)
        sub(/^.*::/, "", name)
        if (!(first in known) || !(name in known)) fault(place, "`" first "::" name "` is no item of the code")
    } else if (name ~ /\//) print "path\t" place "\t" name
    else if (name ~ /\.\.$/) begins(substr(name, 1, length(name) - 2), place)
    else {
        sub(/\.antt$/, "", name)
        if (name ~ /^[A-Za-z][A-Za-z0-9_'-]*$/ && !(name in known))
            fault(place, "`" name "` is no definition, theorem, kept lie, example, crate or item of the code: " \
                "correct the name, or what lost it")
    }
}

# A name whose end is left out.
function begins(start, place,    name) {
    for (name in known) if (index(name, start) == 1) return
    fault(place, "no name begins with `" start "`")
}

# The names of a line. Those that a list has before `` in `FILE.antt` `` stand in that file.
function read_names(line, place,    gap, name, list, n, i) {
    n = 0
    while (match(line, /`[^`]+`/)) {
        gap = substr(line, 1, RSTART - 1)
        name = substr(line, RSTART + 1, RLENGTH - 2)
        line = substr(line, RSTART + RLENGTH)
        look_up(name, place)
        if (name ~ /\/(specs|proofs)\/.*\.antt$/) {
            if (gap ~ /^,? in $/) {
                for (i = 1; i <= n; i++)
                    if (!((list[i], "crates/" name) in in_file)) fault(place, "`" list[i] "` is not in `" name "`")
            }
            n = 0
            continue
        }
        if (gap !~ /^(,|,? and) $/) n = 0
        list[++n] = name
    }
}

# ---- the tables

# The names of a cell, with a space around each.
function names_of(cell,    names) {
    names = " "
    while (match(cell, /`[^`]+`/)) {
        names = names substr(cell, RSTART + 1, RLENGTH - 2) " "
        cell = substr(cell, RSTART + RLENGTH)
    }
    return names
}

# Whether a type is a statement of specs/, or one of what answers, reads or writes that is said of definitions alone.
function of_specs(says,    n, i, word) {
    if (says in is_statement) return 1
    n = split(says, word, " ")
    for (i = 1; i <= n; i++) if (!(word[i] in is_defined)) return 0
    return n > 1 && (word[1] in is_family)
}

function unquoted(cell) {
    gsub(/^ *`|` *$/, "", cell)
    return cell
}

# | `THEOREM` | `STATEMENT` | `CRATE/proofs/FILE.antt` | `LIE` |
function read_theorem(cell, place,    name, says, file, n, i, list, found) {
    name = unquoted(cell[2])
    says = unquoted(cell[3])
    file = crate = unquoted(cell[4])
    sub(/\/.*/, "", crate)
    file = "crates/" file
    n = split(names_of(cell[5]), list, " ")
    for (i = 1; i <= n; i++) if ((list[i], crate) in is_kept) found = 1
    if (of_specs(says) && !found)
        fault(place, "`" name "` has no lie of crates/" crate "/must-fail/ or lies/ in its row: add one, and its name")
    rows++
    if ((name, file, says) in type) is_held[name, file] = 1
    else if ((name, file) in in_file)
        fault(place, "`" name "` in " file " does not say `" says "`: its type there is another")
    else fault(place, "there is no theorem `" name "` in " file)
}

# | `CRATE::FUNCTION` | lies of must-fail/ | lies of lies/ | words |
function read_refused(cell,    i, n, list, last) {
    n = split(names_of(cell[2]), list, " ")
    for (i = 1; i <= n; i++) {
        last = list[i]
        sub(/^.*::/, "", last)
        lies_of[last] = lies_of[last] names_of(cell[3])
    }
    lies_named = lies_named names_of(cell[3]) names_of(cell[4])
}

/^## / { section = substr($0, 4) }

!/^    / {
    place = FILENAME ":" FNR
    if (gsub(/`/, "`") % 2) fault(place, "a name in `..` goes over the end of the line: put it on one")
    # what a theorem says is compared as a whole
    split($0, cell, / \| |^\| | \|$/)
    if (section == "The theorems" && /^\| `/) {
        read_theorem(cell, place)
        read_names("`" unquoted(cell[2]) "`" " in `" unquoted(cell[4]) "` " cell[5], place)
    } else {
        if (section == "What the prover refuses" && /^\| /) read_refused(cell)
        read_names($0, place)
    }
}

# ---- what is not there

function hold_theorems(    i, first) {
    for (i = 1; i <= theorems; i++) {
        first = statement[i]
        sub(/ .*/, "", first)
        if ((first in is_family) && index(statement[i], "λ"))
            fault(where[i], "`" theorem[i] "` says `" first "` of something without a name: define it in specs/")
        if (!of_specs(statement[i]) || ((theorem[i], where[i]) in is_held)) continue
        file = where[i]
        sub(/^crates\//, "", file)
        fault(where[i], "`" theorem[i] "` is in no row under \"The theorems\" of docs/PROMISES.md; add: | `" \
            theorem[i] "` | `" statement[i] "` | `" file "` | `THE LIE THAT TELLS MOST` |")
    }
}

function hold_functions(    i, k, n, list, found) {
    for (i = 1; i <= functions; i++) {
        n = split(lies_of[function_name[i]], list, " ")
        found = 0
        for (k = 1; k <= n; k++) if ((list[k], function_crate[i]) in is_tried) found = 1
        if (!found)
            fault("crates/" function_crate[i], function_name[i] " has no row under \"What the prover refuses\" of " \
                "docs/PROMISES.md with a lie of crates/" function_crate[i] "/must-fail/ in its second column: add both")
    }
}

function hold_lies(    i) {
    for (i = 1; i <= edits; i++)
        if (!index(lies_named, " " edit[i] " ") && !index(lies_named, " " folder[i] " "))
            fault("crates/" folder[i] edit[i] ".edit", "it is not named under \"What the prover refuses\" of " \
                "docs/PROMISES.md: add `" edit[i] "` to the row of what it lies about")
}

END {
    if (files < 2) fault("docs/PROMISES.md", "it is empty")
    if (!rows) fault("docs/PROMISES.md", "it has no table under \"The theorems\"")
    hold_theorems()
    hold_functions()
    hold_lies()
    print "count\t" rows " theorems with their statements, " functions " public functions and " edits \
        " lies; every name is found"
}
