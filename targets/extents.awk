# Writes a program in C from what header.awk prints, for x86-64 Linux: whether each answer that the library writes through a pointer
# has the bytes of the header's struct. The function is called by its name in the library with memory for the answer, twice over
# different bytes: every byte of every member must have been written, and none behind the struct.

$1 == "member" { members[$2] = members[$2] "    MEMBER(" $2 ", " $4 ")\n" }
$1 == "function" { functions[++count] = $2; answer[$2] = $3 }
$1 == "parameter" {
    types[$2] = types[$2] ", " ($3 == "value" ? $4 : "const void *")
    zeros[$2] = zeros[$2] ", 0"
}

END {
    print "#include \"tarnoklej.h\"\n#include <stdio.h>\n#include <string.h>\n"
    print "enum { BEHIND = 64 };"
    print "static unsigned char first[1024], second[1024];"
    print "#define MEMBER(type, member) \\\n    for (size_t i = 0; i < sizeof ((type *)0)->member; i++) \\"
    print "        if (first[offsetof(type, member) + i] != second[offsetof(type, member) + i]) \\"
    print "            wrong = printf(\"%s.%s is not written\\n\", #type, #member);"
    print "#define BEHIND_IT(type) \\\n    for (size_t i = sizeof(type); i < sizeof(type) + BEHIND; i++) \\"
    print "        if (first[i] == second[i]) \\\n            wrong = printf(\"%s has %zu bytes, and byte %zu is written\\n\", #type, sizeof(type), i);\n"
    for (i = 1; i <= count; i++)
        if (answer[functions[i]] != "uint8_t")
            print "void *at_" functions[i] "(void *" types[functions[i]] ") __asm__(\"" functions[i] "\");"
    print "\nint main(void)\n{\n    int wrong = 0;"
    for (i = 1; i <= count; i++) {
        name = functions[i]
        type = answer[name]
        if (type == "uint8_t")
            continue
        print "    if (sizeof(" type ") > 16) {"
        print "    memset(first, 0x55, sizeof first), memset(second, 0xAA, sizeof second);"
        print "    at_" name "(first" zeros[name] "), at_" name "(second" zeros[name] ");"
        print members[type] "    BEHIND_IT(" type ")\n    }"
    }
    print "    return wrong != 0;\n}"
}
