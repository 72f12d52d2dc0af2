# What crosses to C, in one form for both sides: 'struct NAME: TYPE FIELD, ..' and 'fn TYPE NAME: TYPE, ..', a
# line each.
#
#   awk -v side=crates -f test/crossing.awk docs/REFERENCE.md crates/*/src/*.rt
#   awk -f test/crossing.awk c/heukelvos.h
#
# Of the crates: each type of the reference's table under "From C", by the name that it has in C there, and
# each function that is exported. A struct of one unnamed field is that field's type; a slice is a pointer and
# a length.

function complain(text) { print "crossing: " text; bad = 1 }

# The type in C of a type of the crates.
function c_type(t) {
    if (t in plain) return plain[t]
    if (t in wraps) return c_type(wraps[t])
    if (t in c_name) return "struct " c_name[t]
    if (match(t, /^&mut \[.*\]$/)) return c_type(substr(t, 7, length(t) - 7)) " *, size_t"
    if (match(t, /^&\[.*\]$/)) return "const " c_type(substr(t, 3, length(t) - 3)) " *, size_t"
    if (match(t, /^&mut /)) return c_type(substr(t, 6)) " *"
    complain(t " crosses, and the table of types has no name in C for it")
    return t
}

function trimmed(text) {
    gsub(/^[ \t]+|[ \t]+$/, "", text)
    gsub(/[ \t]+/, " ", text)
    return text
}

function of_crates(line,   n, part) {
    if (line == "#[repr(C)]") { repr = 1; return }
    if (line ~ /^#\[/) return
    if (match(line, /^pub struct [A-Za-z]+\(pub [a-z0-9]+\);/)) {
        n = substr(line, 12)
        sub(/\(.*/, "", n)
        sub(/.*\(pub /, "", line)
        sub(/\);.*/, "", line)
        if (repr) wraps[n] = line
    } else if (repr && match(line, /^pub struct [A-Za-z]+ \{/)) {
        opened = substr(line, 12)
        sub(/ .*/, "", opened)
        if (opened in fields) complain("two structs that cross are named " opened)
        fields[opened] = ""
    } else if (line == "}") opened = ""
    else if (opened != "" && match(line, /^ *pub [a-z_]+: .*,$/)) {
        split(trimmed(line), part, /^pub |: |,$/)
        fields[opened] = fields[opened] part[3] "\t" part[2] "\n"
    } else if (line ~ /^pub extern "C" fn /) signature = line
    else if (signature != "") signature = signature " " trimmed(line)
    if (signature ~ /\) (-> [A-Za-z0-9]+)/ && line !~ /^#/) {
        exported[++functions] = signature
        signature = ""
    }
    repr = 0
}

function tell_struct(name,   rows, n, i, part, out) {
    n = split(fields[name], rows, "\n")
    for (i = 1; i < n; i++) {
        split(rows[i], part, "\t")
        out = out (i > 1 ? ", " : "") c_type(part[1]) " " part[2]
    }
    print "struct " c_name[name] ": " out
}

function tell_function(text,   name, answer, given, n, i, part, out) {
    sub(/^pub extern "C" fn /, "", text)
    name = given = answer = text
    sub(/\(.*/, "", name)
    sub(/^[^(]*\(/, "", given)
    sub(/,? *\) ->.*/, "", given)
    sub(/.*\) -> /, "", answer)
    sub(/ .*/, "", answer)
    n = split(given, part, ", ")
    for (i = 1; i <= n; i++) {
        sub(/^ *[a-z_]+: /, "", part[i])
        out = out (i > 1 ? ", " : "") c_type(part[i])
    }
    print "fn " c_type(answer) " " name ": " out
}

# A declaration of the header, its comments gone.
function of_header(text,   name, body, n, i, part, out, t) {
    text = trimmed(text)
    if (text ~ /^struct [a-z_]+ \{/) {
        name = text
        sub(/ \{.*/, "", name)
        sub(/^[^{]*\{ */, "", text)
        n = split(text, part, /; */)
        for (i = 1; i < n; i++) out = out (i > 1 ? ", " : "") part[i]
        print name ": " out
    } else if (text ~ /^[a-z][a-z0-9_ ]*\(.*\)$/) {
        body = text
        sub(/^[^(]*\(/, "", body)
        sub(/\)$/, "", body)
        sub(/\(.*/, "", text)
        name = t = text
        sub(/.* /, "", name)
        sub(/ [a-z_]*$/, "", t)
        n = split(body, part, /, */)
        for (i = 1; i <= n; i++) {
            sub(/[a-z_]*$/, "", part[i])
            out = out (i > 1 ? ", " : "") trimmed(part[i])
        }
        print "fn " t " " name ": " out
    }
}

BEGIN {
    split("u8 u16 u32 u64 i8 i16 i32 i64", width, " ")
    for (i in width) {
        plain[width[i]] = (width[i] ~ /^u/ ? "uint" : "int") substr(width[i], 2) "_t"
    }
    plain["usize"] = "size_t"
    plain["bool"] = "bool"
}

side == "crates" && FILENAME ~ /\.md$/ {
    if (/^\| `[a-z_]+::[A-Za-z]+`.*\| `struct heukelvos_[a-z_]+` \|/) {
        split($0, cell, "`")
        name = cell[2]
        sub(/.*::/, "", name)
        c = $0
        sub(/.*`struct /, "", c)
        sub(/`.*/, "", c)
        c_name[name] = c
        if (c in named) complain(c " stands twice in the table of types")
        named[c] = name
    }
    next
}

side == "crates" { line = $0; sub(/ *\/\/.*/, "", line); of_crates(line); next }

# The header as one text, without comments and lines of the preprocessor.
!/^#/ { all = all $0 " " }

END {
    if (side == "crates") {
        for (c in named) {
            if (named[c] in fields) tell_struct(named[c])
            else complain(named[c] " is no #[repr(C)] struct of the crates")
        }
        for (i = 1; i <= functions; i++) tell_function(exported[i])
        exit bad
    }
    while ((at = index(all, "/*")) > 0) {
        rest = substr(all, at + 2)
        all = substr(all, 1, at - 1) " " substr(rest, index(rest, "*/") + 2)
    }
    gsub(/[ \t]+/, " ", all)
    sub(/extern "C" \{/, "", all)
    depth = 0
    for (i = 1; i <= length(all); i++) {
        ch = substr(all, i, 1)
        if (ch == "{") depth++
        if (ch == "}") depth--
        if (ch == ";" && depth == 0) { of_header(declared); declared = "" }
        else declared = declared ch
    }
}
