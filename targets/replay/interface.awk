# Writes interface.h for the replay from what header.awk prints:
#   CALLS(CALL)        CALL(name, refusals) for each function, the refusals as bits
#   add_STRUCT         adds every member of a struct to the sum, and counts its refusals as the call's
#   add_part_STRUCT    the same without counting, for a struct that is one of many
# tarnoklej_ is left out of the names.

function short(name) { return substr(name, length("tarnoklej_") + 1) }

BEGIN {
    print "/* Made from tarnoklej.h by targets/replay/interface.awk: not to be edited. */"
    print "#ifndef REPLAY_INTERFACE_H\n#define REPLAY_INTERFACE_H"
}

$1 == "refusal" && $2 + 0 > greatest { greatest = $2 + 0 }

$1 == "struct" { structs[++struct_count] = $2 }

$1 == "member" {
    one = $5 > 1 ? "a." $4 "[i]" : "a." $4
    loop = "    " ($5 > 1 ? "for (int i = 0; i < " $5 "; i++)\n        " : "")
    line = loop ($3 == "double" ? "add_double(" one ");\n" : "add((uint64_t)" one ");\n")
    parts[$2] = parts[$2] line
    members[$2] = members[$2] ($4 ~ /(^|_)refusal$/ ? loop "add_refusal(" one ");\n" : line)
}

$1 == "refusals" {
    mask = ""
    for (i = 3; i <= NF; i++)
        mask = mask (i > 3 ? " | " : "") "R(" $i ")"
    calls = calls " \\\n    CALL(" short($2) ", " mask ")"
}

END {
    if (greatest > 31) {
        print "targets: the replay has bits for 31 refusals, and the header has " greatest > "/dev/stderr"
        exit 1
    }
    print "\nenum { MOST_REFUSAL = " greatest " };"
    print "\n#define R(name) (UINT32_C(1) << TARNOKLEJ_##name)"
    print "\n#define CALLS(CALL)" calls
    for (i = 1; i <= struct_count; i++) {
        print "\nstatic inline void add_" short(structs[i]) "(" structs[i] " a)\n{\n" members[structs[i]] "}"
        print "\nstatic inline void add_part_" short(structs[i]) "(" structs[i] " a)\n{\n" parts[structs[i]] "}"
    }
    print "#endif"
}
