# Writes empty_calls.h for the replay from what header.awk prints: for each function one that calls it with chosen buffers empty,
#   static void empty_NAME(unsigned empty, void *place)
# where bit i of empty says that the function's buffer i is empty and begins at place; and EMPTY_CALLS(CALL), which lists them with
# their numbers of buffers. tarnoklej_ is left out of the names. A buffer is a pointer and the size_t behind it.

function short(name) { return substr(name, length("tarnoklej_") + 1) }

function fail(text) {
    print "targets: include/tarnoklej.h: " text > "/dev/stderr"
    failed = 1
    exit 1
}

function finish(    call) {
    if (name == "")
        return
    if (pointer != "")
        fail(name " has the pointer " pointer " without a length behind it")
    call = name "(" arguments ")"
    print "\nstatic void empty_" short(name) "(unsigned empty, void *place)\n{"
    printf "%s", before
    print "    " (type == "uint8_t" ? "add_refusal(" : "add_" short(type) "(") call ");"
    printf "%s}\n", after
    list = list " \\\n    CALL(" short(name) ", " buffers ")"
}

BEGIN { print "/* Made from tarnoklej.h by targets/replay/empty.awk: not to be edited. */" }

$1 == "function" {
    finish()
    name = $2
    type = $3
    buffers = 0
    pointer = before = after = arguments = ""
}

$1 == "parameter" {
    arguments = arguments (arguments == "" ? "" : ", ")
    if ($3 != "value") {
        if (pointer != "")
            fail(name " has the pointer " pointer " without a length behind it")
        pointer = $5
        before = before "    buffer " $5 " = empty >> " buffers " & 1 ? empty_at(place) : buffer_of(\"" $5 "\", sizeof(" $4 "));\n"
        # Of a struct the members are added, since what stands between them is nobody's.
        if ($4 ~ /^tarnoklej_/)
            after = after "    for (size_t i = 0; i < " $5 ".count; i++)\n        add_part_" short($4) "(((" $4 " *)" $5 ".at)[i]);\n"
        else
            after = after "    add_buffer(" $5 ");\n"
        arguments = arguments $5 ".at"
        buffers++
    } else if (pointer != "") {
        if ($4 != "size_t")
            fail(name " has the pointer " pointer " without a length behind it")
        arguments = arguments pointer ".count"
        pointer = ""
    } else
        arguments = arguments "(" $4 ")value_of(\"" $5 "\")"
}

END {
    if (failed)
        exit 1
    finish()
    print "\n#define EMPTY_CALLS(CALL)" list
}
