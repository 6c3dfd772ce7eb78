# Prints the module for another machine.
# Usage: awk -v triple=TRIPLE [-v windows=1] -f retarget.awk module.ll
# Replaced are the lines with the machine's name and data layout, the attribute "target-cpu"="x86-64", and the exported functions:
# tarnoklej_X becomes tarnoklej_raw_X, hidden, and one that gives { i64, i64 } stores it through a first argument instead.
# So a raw function takes and gives pointers, words and bytes alone, and the shim, in C, makes the target's calling convention.
# For Windows the functions have unwind tables and the compiler's own stack probes, and are not hidden, since that would be a
# directive to the linker.

function fail(text) {
    print "targets: " text > "/dev/stderr"
    failed = 1
    exit 1
}

/%answer/ { fail("the module has a value that is named %answer: " $0) }

/^target datalayout = / { next }
/^target triple = / { $0 = "target triple = \"" triple "\"" }

/^attributes / {
    sub(/ "target-cpu"="x86-64"/, "")
    if (windows) {
        sub(/ "probe-stack"="inline-asm"/, "")
        sub(/ \}$/, " uwtable }")
    }
}

/^define / {
    two_words = 0
    if (/^define (noundef (i8|ptr)|\{ i64, i64 \}) @tarnoklej_/) {
        two_words = /^define \{/
        sub(/@tarnoklej_/, "@tarnoklej_raw_")
        if (two_words) {
            sub(/^define \{ i64, i64 \}/, "define void")
            sub(/\(/, "(ptr noundef %answer, ")
        }
        if (!windows)
            sub(/^define /, "define hidden ")
    }
}

two_words && /^  ret / {
    if (!/^  ret \{ i64, i64 \} [^ ]+$/)
        fail("a return of two words that is not known here: " $0)
    sub(/^  ret \{ i64, i64 \} /, "")
    print "  store { i64, i64 } " $0 ", ptr %answer, align 8"
    print "  ret void"
    next
}

{ print }
