# The items of Rattle's source files, one a line: KIND VISIBILITY PLACE MODULE NAME REST, with a tab
# between them.
#
#   KIND         fn, struct, enum, variant, const, type, mod, use or ghost (a name of specifications that is brought)
#   VISIBILITY   pub; or own, also for pub(crate) and the like. A function that is exported to C is pub
#   PLACE        FILE:LINE
#   MODULE       CRATE or CRATE::A::B, by the file's name and the modules around the item
#   NAME         the item's name, TYPE::NAME for a method or a variant; for a use or a ghost use the name that it brings
#   REST         for a function 'ensures N requires N', the number of its clauses of each kind; for a use the path that it names, for a
#                ghost use with its dots. A function has more fields: its parameters and result, and then each ensures, the text
#                between its braces, with a `*` before it where the clause has a star
#
# It reads files by name, crates/NAME/src/*.rt; comments, strings and what stands in bodies is passed
# over. A file whose braces do not match is not understood: its line is 'lost FILE', and the exit status
# is 1.

function emit(kind, visibility, name, rest) {
    print kind "\t" visibility "\t" place "\t" module "\t" name "\t" rest
}

# The next word of the line, in `word`: a name, a literal, or one byte; `gap` is a space if one stands
# before it. 0 at the line's end.
function next_word() {
    if (sub(/^[ \t]+/, "", text)) gap = " "
    if (text == "") return 0
    if (match(text, /^b'([^'\\]|\\[^'][^']*|\\')'/) || match(text, /^b?"([^"\\]|\\.)*"/)) word = "\"\""
    else if (match(text, /^[A-Za-z_0-9]+/)) word = substr(text, 1, RLENGTH)
    else {
        word = substr(text, 1, 1)
        RLENGTH = 1
    }
    text = substr(text, RLENGTH + 1)
    return 1
}

# Takes comments off the line, those of more lines too. A comment's start in a string is none.
function strip(line,    out, part) {
    out = ""
    while (line != "") {
        if (deep) {
            if (!match(line, /\*\//)) return out
            line = substr(line, RSTART + 2)
            deep = 0
        } else if (match(line, /^b'([^'\\]|\\[^'][^']*|\\')'/) || match(line, /^"([^"\\]|\\.)*"/)) {
            out = out substr(line, 1, RLENGTH)
            line = substr(line, RLENGTH + 1)
        } else {
            part = substr(line, 1, 2)
            if (part == "//") return out
            if (part == "/*") {
                deep = 1
                line = substr(line, 3)
                out = out " "
            } else {
                out = out substr(line, 1, 1)
                line = substr(line, 2)
            }
        }
    }
    return out
}

function holds(w,    i) {
    for (i = 1; i <= heads; i++) if (head[i] == w) return i
    return 0
}

function visible(    i) {
    if (holds("fn") && holds("extern")) return "pub"
    i = holds("pub")
    return i && head[i + 1] != "(" ? "pub" : "own"
}

# The uses of a head: `use a::b`, `use a::b as c`, `use a::{b, c as d}`.
function uses(    i, path, base, last, name, start) {
    path = base = last = ""
    for (i = holds("use") + 1; i <= heads + 1; i++) {
        if (i > heads || head[i] == "," || head[i] == "}") {
            if (last != "") emit("use", visible(), name, base path)
            path = last = ""
        } else if (head[i] == "{") {
            base = path
            path = last = ""
        } else if (head[i] == "as") {
            name = head[++i]
        } else {
            path = path head[i]
            if (head[i] != ":") name = last = head[i]
        }
    }
}

# The names that a ghost use brings: `ghost use A.B.{c, d as e}`.
function ghosts(    i, path, base, name) {
    for (i = holds("use") + 1; i <= heads; i++) {
        if (head[i] == "{") {
            base = path
            path = name = ""
        } else if (head[i] == "," || head[i] == "}") {
            if (path != "") emit("ghost", "own", name == "" ? path : name, base path)
            path = name = ""
        } else if (head[i] == "as") {
            while (i < heads && head[i + 1] != "," && head[i + 1] != "}") name = name head[++i]
        } else path = path head[i]
    }
}

# A function's parameters and result, with a space between the words.
function signature(i,    text) {
    for (; i <= heads; i++) text = text " " head[i]
    return substr(text, 2)
}

# An item is whole: at its `;`, or at the brace of its body.
function item(    i, own) {
    own = owner == "" ? "" : owner "::"
    if (holds("use")) {
        if (head[1] == "ghost") ghosts()
        else uses()
    } else if (i = holds("fn")) emit("fn", visible(), own head[i + 1], "ensures " ensures " requires " requires "\t" signature(i + 2) said)
    else if (i = holds("mod")) emit("mod", visible(), head[i + 1], "")
    else if (i = holds("struct")) emit("struct", visible(), head[i + 1], "")
    else if (i = holds("enum")) emit("enum", visible(), head[i + 1], "")
    else if (i = holds("const")) emit("const", visible(), own head[i + 1], "")
    else if (i = holds("type")) emit("type", visible(), head[i + 1], "")
}

function fresh_head() {
    heads = ensures = requires = brackets = 0
    said = ""
    split("", head)
}

# The type of `impl T`, without its lifetimes.
function type_of_impl(    i, angles, name) {
    for (i = holds("impl") + 1; i <= heads; i++) {
        if (head[i] == "<") angles++
        else if (head[i] == ">") angles--
        else if (!angles && head[i] ~ /^[A-Za-z_]/) name = head[i]
    }
    return name
}

# Whether the head ends in a clause's word, which may have a star and a name behind it: `ensures {`,
# `ensures kept {`, `ensures* {`. It is counted and taken off.
function clause(    i) {
    for (i = heads; i >= heads - 2 && i > 0; i--) {
        if (head[i] !~ /^(ensures|requires|ghost)$/ || (i < heads - 1 && head[i + 1] != "*")) continue
        if (head[i] == "ensures") {
            ensures++
            said = said "\t" (head[i + 1] == "*" && i < heads ? "*" : "")
            saying = 1
        }
        if (head[i] == "requires") requires++
        heads = i - 1
        return 1
    }
    return 0
}

# A brace opens, outside of what is passed over.
function opens() {
    if (holds("use")) {
        head[++heads] = "{"
        listed = 1
    } else if (holds("fn") && clause()) {
        skipped = 1
    } else if (holds("fn")) {
        item()
        fresh_head()
        skipped = 1
    } else if (holds("extern")) {
        fresh_head()
        skipped = 1
    } else if (holds("impl")) {
        owner = type_of_impl()
        owner_depth = ++depth
        fresh_head()
    } else if (holds("mod")) {
        item()
        outer[++depth] = module
        module = module "::" head[holds("mod") + 1]
        fresh_head()
    } else if (holds("enum")) {
        item()
        variants_of = head[holds("enum") + 1]
        variants_seen = visible()
        wanted = 1
        skipped = 1
        fresh_head()
    } else if (holds("struct")) {
        item()
        fresh_head()
        skipped = 1
    } else skipped = 1
}

# A brace closes a module or an impl.
function closes() {
    if (owner != "" && depth == owner_depth) owner = ""
    else if (depth in outer) {
        module = outer[depth]
        delete outer[depth]
    }
    depth--
    fresh_head()
}

# A word in what is passed over. Of an enum's body, the names that stand first in it or behind a comma are
# its variants.
function pass() {
    if (word == "{" || word == "(") skipped++
    if (word == "}" || word == ")") skipped--
    if (skipped == 0) saying = 0
    if (saying) said = said gap word
    if (variants_of == "") return
    if (skipped == 0) variants_of = ""
    else if (skipped == 1 && word == ",") wanted = 1
    else if (skipped == 1 && wanted && word ~ /^[A-Za-z_]/) {
        emit("variant", variants_seen, variants_of "::" word, "")
        wanted = 0
    }
}

function take() {
    if (skipped) pass()
    else if (word == "{") opens()
    else if (word == "}" && listed) {
        head[++heads] = "}"
        listed = 0
    } else if (word == "}") closes()
    else if (word == ";" && brackets == 0) {
        item()
        fresh_head()
    } else {
        if (word == "[" || word == "(") brackets++
        if (word == "]" || word == ")") brackets--
        if (heads == 0) place = FILENAME ":" FNR
        if (word == "fn" || word == "struct" || word == "enum") place = FILENAME ":" FNR
        head[++heads] = word
        # an attribute of the whole file, `#![..]`, is of no item
        if (word == "]" && brackets == 0 && head[1] == "#" && head[2] == "!") fresh_head()
    }
}

# crates/NAME/src/lib.rt and main.rt are the crate NAME, crates/NAME/src/a/b.rt is NAME::a::b.
function module_of(file,    n, part, i, m) {
    n = split(file, part, "/")
    for (i = 1; part[i] != "src"; i++) m = part[i]
    for (i++; i <= n; i++) {
        sub(/\.rt$/, "", part[i])
        if (part[i] != "lib" && part[i] != "main" && part[i] != "mod") m = m "::" part[i]
    }
    return m
}

# At the end of a file nothing is open.
function file_ends() {
    if (!skipped && !depth && !deep && !listed && !heads) return
    print "lost\t" file
    lost = 1
}

FNR == 1 {
    if (file != "") file_ends()
    file = FILENAME
    module = module_of(file)
    depth = skipped = deep = listed = saying = 0
    owner = variants_of = ""
    split("", outer)
    fresh_head()
}

{
    text = strip($0)
    gap = " "
    while (next_word()) {
        take()
        gap = ""
    }
}

END {
    file_ends()
    exit lost
}
