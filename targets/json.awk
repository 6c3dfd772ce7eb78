# Writes the interface as JSON, for callers that cannot read a C header, as those of WebAssembly.
# Usage: awk -f json.awk LAYOUTS INTERFACE
# LAYOUTS: the header's structs, as clang prints record layouts. INTERFACE: what header.awk prints. Sizes and offsets are bytes.

function quoted(text) {
    gsub(/[\\"]/, "\\\\&", text)
    return "\"" text "\""
}

function joined(list, item) { return list (list == "" ? "" : ",") "\n    " item }

FNR == 1 { file++ }

file == 1 && /^Type: / { of = $2 }
file == 1 && /^ *Size:/ { sub(/.*Size:/, ""); bits[of] = $0 + 0 }
file == 1 && /FieldOffsets: \[/ {
    gsub(/.*\[|\].*/, "")
    split($0, list, /, */)
    for (i in list)
        offset[of, i] = list[i]
}
file == 1 { next }

$1 == "version" { version = $2 "." $3 "." $4 }
$1 == "constant" { constants = joined(constants, quoted(substr($2, length("TARNOKLEJ_") + 1)) ": " $3) }
$1 == "refusal" {
    words = $0
    sub(/^refusal [0-9]+ [A-Z]+ /, "", words)
    refusals = joined(refusals, "{ \"number\": " $2 ", \"name\": " quoted($3) ", \"words\": " quoted(words) " }")
}
$1 == "struct" { names[++structs] = $2 }
$1 == "member" {
    members[$2] = members[$2] (counted[$2]++ ? ", " : "") quoted($4) ": { \"type\": " quoted($3) ", \"offset\": " \
        offset[$2, counted[$2]] / 8 ", \"count\": " $5 " }"
}
$1 == "function" { functions[++calls] = $2; answers[$2] = $3 }
$1 == "parameter" {
    parameters[$2] = parameters[$2] (given[$2]++ ? ", " : "") "{ \"name\": " quoted($5) ", \"type\": " quoted($4) \
        ", \"kind\": " quoted($3) " }"
}

END {
    for (i = 1; i <= structs; i++)
        shapes = joined(shapes, quoted(names[i]) ": { \"size\": " bits[names[i]] / 8 ", \"members\": { " members[names[i]] " } }")
    for (i = 1; i <= calls; i++)
        list_of_calls = joined(list_of_calls, quoted(functions[i]) ": { \"answer\": " quoted(answers[functions[i]]) \
            ", \"parameters\": [" parameters[functions[i]] "] }")
    print "{\n  \"version\": " quoted(version) ",\n  \"refusals\": [" refusals "\n  ],\n  \"constants\": {" constants \
        "\n  },\n  \"structs\": {" shapes "\n  },\n  \"functions\": {" list_of_calls "\n  }\n}"
}
