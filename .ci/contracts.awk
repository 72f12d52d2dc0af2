# Judges the contracts of public functions: reads the names of .ci/names, and then the items of .ci/items. See
# .ci/contracts for what a contract must say.

BEGIN {
    FS = "\t"
    in_names = 1
}

# the line between the two
$0 == "the items" {
    in_names = 0
    next
}

# A definition as CRATE.FILE.NAME.
in_names {
    path = $3
    sub(/^crates\//, "", path)
    sub(/\/specs\//, ".", path)
    sub(/\.antt$/, "", path)
    gsub(/\//, ".", path)
    if ($1 == "definition") is_definition[path "." $2] = 1
    next
}

# A name that a file brings from a specs/ folder: Rattle.CRATE.specs.FILE.NAME.
$1 == "ghost" {
    path = $6
    if (index(path, "Rattle.") != 1) next
    path = substr(path, length("Rattle.") + 1)
    if (sub(/\.specs\./, ".", path)) brought[file_of($3), $5] = path
    next
}

$1 == "fn" && $2 == "pub" {
    seen++
    line_of[seen] = $0
}

function file_of(place) {
    sub(/:[0-9]*$/, "", place)
    return place
}

# ---- text

function trim(text) {
    sub(/^ +/, "", text)
    sub(/ +$/, "", text)
    return text
}

# A text without the brackets around all of it.
function bare(text,    i, c, deep) {
    text = trim(text)
    while (substr(text, 1, 1) == "(") {
        deep = 0
        for (i = 1; i <= length(text); i++) {
            c = substr(text, i, 1)
            if (c == "(") deep++
            if (c == ")" && --deep == 0) break
        }
        if (i < length(text)) return text
        text = trim(substr(text, 2, length(text) - 2))
    }
    return text
}

# The parts of a text between the signs that stand in no bracket, in `part`; how many there are.
function parts_at(sign, text, part,    i, c, deep, n) {
    split("", part)
    n = 1
    part[1] = ""
    for (i = 1; i <= length(text); i++) {
        c = substr(text, i, 1)
        if (c == "(" || c == "{" || c == "[") deep++
        if (c == ")" || c == "}" || c == "]") deep--
        if (!deep && substr(text, i, length(sign)) == sign) {
            part[++n] = ""
            i += length(sign) - 1
        } else part[n] = part[n] c
    }
    return n
}

# Whether a text has a word, and not as a part of another or as the name of a field.
function has(text, word,    at, end, rest) {
    rest = " " text " "
    while (at = index(rest, word)) {
        end = at + length(word)
        if (substr(rest, at - 1, 1) !~ /[A-Za-z0-9_'.-]/ && substr(rest, end, 1) !~ /[A-Za-z0-9_'-]/) return 1
        rest = "x" substr(rest, end)
    }
    return 0
}

# ---- a function

# What a public contract may name: a definition of specs/, but not of Inner, and no parameter that has its
# name.
function defines(word,    path) {
    if (!((file, word) in brought) || (word in parameter)) return 0
    path = brought[file, word]
    return (path in is_definition) && path !~ /^[A-Za-z_0-9]*\.Inner\./
}

# `limits.phase.lower` is said by the definition `limits`.
function has_definition(text,    n, i, list) {
    gsub(/[^A-Za-z0-9_'.-]/, " ", text)
    n = split(text, list, " ")
    for (i = 1; i <= n; i++) {
        sub(/\..*/, "", list[i])
        if (defines(list[i])) return 1
    }
    return 0
}

function has_parameter(text,    name) {
    for (name in parameter) if (has(text, name)) return 1
    return 0
}

# Reads '( c : Clock , out : & mut [ u8 ] ) - > u8' into `parameter` and `lent`; whether there is a result.
function read_signature(text,    n, i, list, deep) {
    split("", parameter)
    split("", lent)
    n = split(text, list, " ")
    for (i = 1; i <= n; i++) {
        if (list[i] == "(") deep++
        if (list[i] == ")" && --deep == 0) break
        if (list[i + 1] == ":" && list[i + 2] != ":" && list[i - 1] != ":" && deep == 1) {
            parameter[list[i]] = 1
            if (list[i + 2] == "&" && (list[i + 3] == "mut" || list[i + 5] == "mut")) lent[list[i]] = 1
        } else if (list[i] == "self") parameter["self"] = 1
    }
    return list[i + 1] == "-" && list[i + 2] == ">" && !(list[i + 3] == "(" && list[i + 4] == ")")
}

function complain(why) { complaint[++refused] = place ": " name " is public and " why }

# One of the statements that a clause joins by ×. It sets `told` where it says what the result is, and names
# what is lent in `remains`.
function judge(text, result,    n, i, p) {
    text = bare(text)
    n = parts_at("×", text, p)
    if (n > 1) for (i = 1; i <= n; i++) later[++waiting] = p[i]
    else if (parts_at("≡", text, p) == 2) judge_equation(text, bare(p[1]), bare(p[2]), result)
    else if (parts_at("≤", text, p) == 2 || parts_at("<", text, p) == 2)
        judge_order(text, bare(p[1]), bare(p[2]), result)
    else judge_relation(text, result)
}

function judge_equation(text, left, right, result,    head, of) {
    head = of = left
    sub(/ .*/, "", head)
    sub(/^[^ ]* /, "", of)
    if (left == right) complain("says of a thing that it is itself: " text)
    else if (has(left, result) && has(right, result)) complain("says nothing of its result but by itself: " text)
    else if (!has_definition(right)) complain("says by no definition of specs/ what a thing is: " text)
    else if (left == result || (defines(head) && bare(of) == result)) told = 1
    else if (left ~ /^[a-z_0-9]+\.new$/) lent_is_told(left)
    else if (left ~ /^[A-Z][A-Z_0-9]*$/ && !defines(left)) return
    else complain("promises neither its result, whole, nor what remains of a thing lent, nor a constant: " text)
}

function judge_order(text, left, right, result) {
    if (has(left, result) == has(right, result))
        complain("says nothing of its result but by itself, or does not name it: " text)
}

function judge_relation(text, result,    head) {
    head = text
    sub(/ .*/, "", head)
    if (!defines(head)) complain("has a promise that is no equation, no order and no relation of specs/: " text)
    else if (!has_parameter(substr(text, length(head) + 1)))
        complain("says nothing of its result but by itself: " text)
    else if (!has(text, result) && text !~ /\.new([^A-Za-z0-9_]|$)/) complain("does not name its result: " text)
    else {
        if (substr(text, length(text) - length(result)) == " " result || index(text, " " result " ")) told = 1
        lent_is_told(text)
    }
}

function lent_is_told(text,    name) {
    for (name in lent) if (has(text, name ".new")) remains[name] = 1
}

# What stands between the braces of an `ensures`.
function judge_clause(text) {
    if (sub(/^\*/, "", text)) return complain("has a clause with a star, which is of memory: " trim(text))
    waiting = 1
    later[1] = text
    while (waiting) judge(later[waiting--], "result")
}

function judge_function(    n, field, i, with_result, clauses, before) {
    n = split(line_of[k], field, "\t")
    place = field[3]
    name = field[5]
    file = file_of(place)
    with_result = read_signature(field[7])
    split(field[6], clauses, " ")
    if (clauses[4] > 0) complain("has a requires")
    if ("result" in parameter) complain("has a parameter named result")
    if (clauses[2] == 0) return complain("has no ensures")
    told = 0
    split("", remains)
    before = refused
    for (i = 8; i <= n; i++) judge_clause(field[i])
    if (refused > before) return
    if (with_result && !told) complain("says by no definition of specs/ what its result is")
    for (i in lent) if (!(i in remains)) complain("does not say what remains of " i)
}

END {
    for (k = 1; k <= seen; k++) judge_function()
    for (i = 1; i <= refused; i++) print "contracts: " complaint[i]
    if (refused || !seen) {
        printf "contracts: refused; public functions seen: %d\n", seen
        exit 1
    }
    printf "contracts: %d public functions, each promised by the definitions of specs/ and none with a requires\n", seen
}
