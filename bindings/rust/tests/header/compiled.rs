//! What the header means to a C compiler.

use crate::common::in_repository;
use crate::declared::Declared;
use crate::laid_out::Layout;
use std::path::Path;
use std::process::Command;

/// The lines that a C program prints which includes the header; the name is that of its files.
pub fn compiled_lines(name: &str, statements: &str) -> Vec<String> {
    let folder = Path::new(env!("CARGO_TARGET_TMPDIR"));
    let (source, program) = (folder.join(format!("{name}.c")), folder.join(name));
    let text = format!(
        "#include <stdio.h>\n#include \"tarnoklej.h\"\n\
         int main(void)\n{{\n{statements}\nreturn 0;\n}}\n"
    );
    std::fs::write(&source, text).expect("a C program can be written");
    let compiler = std::env::var("CC").unwrap_or_else(|_| "cc".to_string());
    let mut build = Command::new(&compiler);
    build.args(["-std=c11", "-Wall", "-Werror", "-I"]).arg(in_repository("include")).arg(&source);
    let built = build.arg("-o").arg(&program).output();
    let built = built.unwrap_or_else(|error| panic!("the C compiler {compiler} cannot be run: {error}"));
    assert!(built.status.success(), "{}", String::from_utf8_lossy(&built.stderr));
    let run = Command::new(&program).output().expect("the C program runs");
    assert!(run.status.success());
    String::from_utf8(run.stdout).expect("the C program prints text").lines().map(str::to_string).collect()
}

/// The name in C of a struct.
fn c_name(name: &str) -> String {
    format!("tarnoklej_{}", name.to_lowercase())
}

/// The numbers of a line.
fn numbers(line: &str) -> Vec<usize> {
    line.split(' ').map(|word| word.parse().expect("a number")).collect()
}

/// The layouts of structs of the header.
pub fn compiled_layouts(structs: &[Declared]) -> Vec<Layout<'_>> {
    let mut statements = String::new();
    for Declared { name, members } in structs {
        let c_name = c_name(name);
        statements += &format!("printf(\"%zu %zu\\n\", sizeof({c_name}), _Alignof({c_name}));\n");
        for (member, _) in members {
            let size = format!("sizeof((({c_name} *)0)->{member})");
            statements += &format!("printf(\"%zu %zu\\n\", offsetof({c_name}, {member}), {size});\n");
        }
    }
    let lines = compiled_lines("layouts", &statements);
    let mut lines = lines.iter().map(|line| numbers(line));
    let mut next = || lines.next().map(|line| (line[0], line[1])).expect("a line for each struct and member");
    structs
        .iter()
        .map(|Declared { name, members }| {
            let (size, align) = next();
            let members = members.iter().map(|(member, _)| {
                let (offset, size) = next();
                (member.as_str(), offset, size)
            });
            Layout { name, size, align, members: members.collect() }
        })
        .collect()
}
