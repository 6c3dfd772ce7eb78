# Checks the exported functions of the module against the header, and writes their shim in C.
# Usage: awk -f shim.awk LAYOUTS MODULE INTERFACE
# LAYOUTS: the sizes of the header's structs, as clang prints record layouts. MODULE: module.ll. INTERFACE: what header.awk prints.
# The shim defines each function of the header by tarnoklej_raw_.., as retarget.awk makes it.

function fail(text) {
    print "targets: " text > "/dev/stderr"
    failed = 1
    exit 1
}

# The type of a parameter in the module, by its type in C.
function lowered(kind, type) {
    if (kind != "value")
        return "ptr"
    if (type == "size_t" || type == "int64_t" || type == "uint64_t")
        return "i64"
    if (type == "uint8_t")
        return "i8"
    fail("a type in the header that is not known here: " type)
}

# How the module gives an answer of a type in C, and whether through a first argument.
function answer_of(name, type) {
    if (type == "uint8_t")
        return "i8("
    if (!(type in bits))
        fail("the size of " type " is not known")
    if (bits[type] == 128)
        return "{ i64, i64 }("
    if (bits[type] > 128)
        return "ptr(ptr"
    fail(name " gives a struct of " bits[type] " bits, and it is not known how the module gives one under 128")
}

function write_shim(name, type,    raw) {
    raw = "tarnoklej_raw_" substr(name, length("tarnoklej_") + 1)
    print ""
    if (type == "uint8_t") {
        # The register of the raw answer may hold anything above the byte: it is read as a word, and cut here.
        print "uint32_t " raw "(" parameters[name] ") " hidden ";"
        print type " " name "(" parameters[name] ")\n{\n    return (uint8_t)" raw "(" arguments[name] ");\n}"
    } else {
        # A large answer's pointer also comes back.
        print (bits[type] > 128 ? "void *" : "void ") raw "(" type " *answer, " parameters[name] ") " hidden ";"
        print type " " name "(" parameters[name] ")\n{"
        print "    " type " answer;\n    " raw "(&answer, " arguments[name] ");\n    return answer;\n}"
    }
}

BEGIN { hidden = "__attribute__((visibility(\"hidden\")))" }

FNR == 1 { file++ }

file == 1 && /^Type: / { of = $2 }
file == 1 && /^ *Size:/ { sub(/.*Size:/, ""); bits[of] = $0 + 0 }

# The functions of the module that are not internal, each as answer(parameters).
file == 2 && /^define / && !/^define internal / {
    if ($0 !~ /^define (noundef i8|noundef ptr|\{ i64, i64 \}) @tarnoklej_[a-z_]+\(((ptr|i64|i8) noundef %a[0-9]+(, )?)*\) #[0-9]+ \{$/)
        fail("a signature in the module that is not known here: " $0)
    name = $0
    sub(/^[^@]*@/, "", name)
    sub(/\(.*/, "", name)
    answer = $0
    sub(/^define (noundef )?/, "", answer)
    sub(/ @.*/, "", answer)
    sub(/^[^(]*\(/, "")
    sub(/\) #.*/, "")
    gsub(/ noundef %a[0-9]+/, "")
    module[name] = answer "(" $0 ")"
}

file == 3 && $1 == "function" {
    functions[++count] = $2
    type_of[$2] = $3
    wanted[$2] = answer_of($2, $3)
}

file == 3 && $1 == "parameter" {
    wanted[$2] = wanted[$2] (wanted[$2] ~ /\($/ ? "" : ", ") lowered($3, $4)
    comma = $2 == last ? ", " : ""
    parameters[$2] = parameters[$2] comma ($3 == "input" ? "const " : "") $4 ($3 == "value" ? " " : " *") $5
    arguments[$2] = arguments[$2] comma $5
    last = $2
}

END {
    if (failed)
        exit 1
    print "/* The functions of tarnoklej.h for the calling convention of this target. Made by targets/shim.awk: not to be edited. */"
    print "#include \"tarnoklej.h\"\n"
    print "_Static_assert(sizeof(size_t) == 8 && sizeof(void *) == 8, \"the module has words of 64 bits\");"
    print "_Static_assert(__BYTE_ORDER__ == __ORDER_LITTLE_ENDIAN__, \"the module has the low byte first\");"
    for (i = 1; i <= count; i++) {
        name = functions[i]
        if (!(name in module))
            fail("the header has " name ", the module has no such function")
        if (module[name] != wanted[name] ")")
            fail("the module has " name " as " module[name] ", but by the header it should be " wanted[name] ")")
        write_shim(name, type_of[name])
    }
    for (name in module)
        if (!(name in type_of))
            fail("the module has " name ", the header does not")
}
