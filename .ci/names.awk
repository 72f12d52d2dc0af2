# The names that the files of specs/ and proofs/ give, for .ci/names: lines KIND NAME FILE, and of a law its
# type as a fourth field.

function emit(kind, name, type) { print kind "\t" name "\t" file (type == "" ? "" : "\t" type) }

# The law whose type is being read is whole.
function end_type() {
    if (law == "") return
    gsub(/[ \t]+/, " ", type)
    sub(/^ /, "", type)
    sub(/ $/, "", type)
    emit(is_public ? "theorem" : "law", law, type)
    law = type = ""
}

function indent(    at) {
    at = match($0, /[^ ]/)
    return at ? at : 999
}

# The name that a line gives, behind the words before it.
function name_of(    name) {
    name = $0
    sub(/^ *(abbrev |unfoldable |pub |record |data )*/, "", name)
    sub(/[ :({].*/, "", name)
    return name
}

FNR == 1 {
    end_type()
    file = FILENAME
    in_specs = file ~ /^crates\/[^\/]*\/specs\//
}

{ sub(/[ \t]*--.*/, "") }

# A type goes on over the lines that are indented more.
law != "" && /[^ ]/ && indent() > margin {
    type = type " " $0
    next
}

{ end_type() }

/^ *pub mod / { next }

in_specs && /^(abbrev |unfoldable )?pub / {
    is_statement = /^(abbrev |unfoldable )?pub (record )?[^ ]+ : Type [0-9]( where)?$/
    is_family = /^(abbrev |unfoldable )?pub [^ ]+ : .*→ Type [0-9]$/ || /^pub record [^ ]+ \(.*\) : Type [0-9] where$/
    emit("definition", name_of(), is_statement ? "statement" : is_family ? "family" : "")
    next
}

!in_specs && /^ *(abbrev |unfoldable |pub )*[^ :({]+ :/ {
    law = name_of()
    is_public = /^ *pub /
    margin = indent()
    type = $0
    sub(/^[^:]*:/, "", type)
    next
}

/^ *(pub )?[^ :({]+ :/ || /^ *(abbrev |unfoldable |pub )*(record|data) [^{]/ {
    emit(in_specs ? "field" : "law", name_of())
}

END { end_type() }
