# Reads include/tarnoklej.h and prints what it declares, one thing to a line, for the scripts of this folder:
#   version MAJOR MINOR PATCH TEXT
#   refusal NUMBER NAME WORDS..              a refusal number, with the comment beside it
#   constant NAME VALUE                      of the other enums
#   struct NAME
#   member STRUCT TYPE NAME COUNT            COUNT is 1 where the member is no array
#   function NAME TYPE                       TYPE is that of the answer
#   parameter FUNCTION KIND TYPE NAME        KIND is value, input (a pointer to const) or output (a pointer)
#   refusals FUNCTION NAME..                 those that the function's comment lists
# It stops, with a reason, at anything that it does not know.

function fail(text) {
    print "targets: include/tarnoklej.h: " text > "/dev/stderr"
    failed = 1
    exit 1
}

function one_line(text) {
    gsub(/[ \t\n]+/, " ", text)
    sub(/^ /, "", text)
    sub(/ $/, "", text)
    return text
}

# The text without its comments.
function without_comments(text,    start) {
    while (start = index(text, "/*"))
        text = substr(text, 1, start - 1) " " substr(text, start + 1 + index(substr(text, start), "*/"))
    return text
}

# Takes the first line from the text that is left.
function take_line(    end, line) {
    end = index(left, "\n")
    line = substr(left, 1, end - 1)
    left = substr(left, end + 1)
    return line
}

function take_comment(    end, text) {
    end = index(left, "*/")
    if (!end)
        fail("a comment has no end")
    text = substr(left, 3, end - 3)
    left = substr(left, end + 2)
    gsub(/\n \*/, "\n", text)
    return one_line(text)
}

# Takes one declaration: up to a semicolon outside braces, or up to the last brace of an inline function.
function take_declaration(    i, c, depth, size, inline, text) {
    inline = left ~ /^static inline /
    size = length(left)
    for (i = 1; i <= size; i++) {
        c = substr(left, i, 1)
        if (substr(left, i, 2) == "/*") {
            i += index(substr(left, i), "*/")
            continue
        }
        depth += (c == "{") - (c == "}")
        if (depth == 0 && (c == ";" || (c == "}" && inline))) {
            text = substr(left, 1, i)
            left = substr(left, i + 1)
            return text
        }
    }
    fail("it ends within a declaration: " one_line(substr(left, 1, 80)))
}

function preprocessor(line,    words) {
    if (line ~ /^#define TARNOKLEJ_VERSION(_MAJOR|_MINOR|_PATCH)? /) {
        split(line, words, " ")
        version[words[2]] = words[3]
    } else if (line == "#ifdef __cplusplus") {
        while (left != "" && line != "#endif")
            line = take_line()
    } else if (line !~ /^#(ifndef TARNOKLEJ_H|define TARNOKLEJ_H|include <std(def|int)\.h>|endif)$/)
        fail("a line for the preprocessor that is not known here: " line)
}

# The enumerators with the comments behind them.
function enumeration(text, of_refusals,    end, rest, name, value, words) {
    sub(/^enum \{/, "", text)
    while (match(text, /TARNOKLEJ_[A-Z_]+ = [0-9]+/)) {
        if (one_line(substr(text, 1, RSTART - 1)) !~ /^,?$/)
            fail("an enumerator that is not known here: " one_line(substr(text, 1, RSTART - 1)))
        name = substr(text, RSTART, RLENGTH)
        text = substr(text, RSTART + RLENGTH)
        value = name
        sub(/ = .*/, "", name)
        sub(/.* = /, "", value)
        sub(/^,/, "", text)
        words = ""
        if (match(text, /^[ \t]*\/\*/)) {
            end = index(text, "*/")
            words = one_line(substr(text, RLENGTH + 1, end - RLENGTH - 1))
            text = substr(text, end + 2)
        }
        if (of_refusals && words == "")
            fail(name " has no words beside it")
        name_of_refusal = substr(name, length("TARNOKLEJ_") + 1)
        if (of_refusals) {
            refusals[name_of_refusal] = 1
            print "refusal", value, name_of_refusal, words
        } else
            print "constant", name, value
    }
    rest = one_line(text)
    if (rest !~ /^,? ?\};$/)
        fail("an enum that is not known here ends with: " rest)
}

function structure(text,    name, count, i, j, k, members, type, names, length_of) {
    name = text
    sub(/^.*\} /, "", name)
    sub(/;$/, "", name)
    if (name !~ /^tarnoklej_[a-z_]+$/)
        fail("a struct's name that is not known here: " name)
    sub(/^typedef struct \{ ?/, "", text)
    sub(/ ?\} [a-z_]+;$/, "", text)
    print "struct", name
    structs[name] = 1
    count = split(text, members, / ?; ?/)
    for (i = 1; i <= count; i++) {
        if (members[i] == "")
            continue
        if (members[i] !~ /^(u?int(8|16|32|64)_t|size_t|double) [a-z0-9_]+(\[[0-9]+\])?(, [a-z0-9_]+)*$/)
            fail("a member of " name " that is not known here: " members[i])
        type = members[i]
        sub(/ .*/, "", type)
        sub(/^[a-z0-9_]+ /, "", members[i])
        k = split(members[i], names, ", ")
        for (j = 1; j <= k; j++) {
            length_of = 1
            if (names[j] ~ /\[/) {
                length_of = names[j]
                gsub(/.*\[|\]/, "", length_of)
                sub(/\[.*/, "", names[j])
            }
            print "member", name, type, names[j], length_of
        }
    }
}

# The refusals that a function's comment names, from the word Refusals to the line about buffers.
function listed(comment,    start, i, count, words, list, seen) {
    start = match(comment, /Refusals( in order)?[:,]/)
    if (!start)
        return ""
    comment = substr(comment, start + RLENGTH)
    sub(/ Buffers: .*/, "", comment)
    count = split(comment, words, /[^A-Za-z0-9_]+/)
    list = ""
    for (i = 1; i <= count; i++)
        if (words[i] in refusals && !(words[i] in seen)) {
            seen[words[i]] = 1
            list = list " " words[i]
        }
    return list
}

function function_of(text, comment,    type, name, list, count, i, parts, kind) {
    if (text !~ /^[a-z0-9_]+ tarnoklej_[a-z_]+\([^()]*\);$/)
        fail("a declaration that is not known here: " text)
    type = text
    sub(/ .*/, "", type)
    name = text
    sub(/^[a-z0-9_]+ /, "", name)
    sub(/\(.*/, "", name)
    if (type != "uint8_t" && !(type in structs))
        fail(name " gives a " type ", which is neither a byte nor a struct of the header")
    print "function", name, type
    functions++
    list = text
    sub(/^[^(]*\(/, "", list)
    sub(/\);$/, "", list)
    count = split(list, parts, /, */)
    for (i = 1; i <= count; i++) {
        if (parts[i] !~ /^(const )?[a-z0-9_]+ \*?[a-z_]+$/)
            fail("a parameter of " name " that is not known here: " parts[i])
        kind = parts[i] ~ /^const .*\*/ ? "input" : parts[i] ~ /\*/ ? "output" : "value"
        sub(/^const /, "", parts[i])
        type = parts[i]
        sub(/ .*/, "", type)
        if (!(type in structs && kind != "value") && type !~ /^(u?int(8|64)_t|size_t)$/)
            fail("a type of a parameter of " name " that is not known here: " type)
        sub(/^.*[ *]/, "", parts[i])
        print "parameter", name, kind, type, parts[i]
    }
    list = listed(comment)
    if (list == "")
        fail(name " has no comment that lists its refusals")
    print "refusals", name list
}

{ left = left $0 "\n" }

END {
    if (failed)
        exit 1
    while (1) {
        sub(/^[ \t\n]+/, "", left)
        if (left == "")
            break
        if (left ~ /^\/\*/) {
            comment = take_comment()
            continue
        }
        if (left ~ /^#/) {
            preprocessor(take_line())
            continue
        }
        text = take_declaration()
        if (text ~ /^enum \{/)
            enumeration(text, comment ~ /^The refusal numbers/)
        else if (text !~ /^static inline /) {
            text = one_line(without_comments(text))
            if (text ~ /^typedef struct \{/)
                structure(text)
            else
                function_of(text, comment)
        }
    }
    if (!functions)
        fail("it has no function")
    print "version", version["TARNOKLEJ_VERSION_MAJOR"], version["TARNOKLEJ_VERSION_MINOR"], version["TARNOKLEJ_VERSION_PATCH"], \
        version["TARNOKLEJ_VERSION"]
}
