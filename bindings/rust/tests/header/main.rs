//! The declarations of src/ffi.rs and the refusals against include/tarnoklej.h, through its text and through a C compiler.

#[path = "../common/mod.rs"]
mod common;
mod compiled;
mod declared;
mod laid_out;

use common::text_of;
use compiled::{compiled_layouts, compiled_lines};
use declared::{functions_of_ffi, functions_of_header, structs_of_ffi, structs_of_header};
use laid_out::layouts;
use tarnoklej::Refusal;

/// The text of src/ffi.rs.
const FFI: &str = include_str!("../../src/ffi.rs");

/// The text of the header.
fn header() -> String {
    text_of("include/tarnoklej.h")
}

#[test]
fn structs_have_the_headers_members() {
    let (ours, expected) = (structs_of_ffi(FFI), structs_of_header(&header()));
    assert_eq!(ours, expected);
    assert!(expected.len() >= 8, "{} structs", expected.len());
}

#[test]
fn structs_have_the_c_compilers_sizes_and_offsets() {
    let structs = structs_of_header(&header());
    assert_eq!(layouts(), compiled_layouts(&structs));
    let listed: Vec<&str> = layouts().iter().map(|layout| layout.name).collect();
    let mut declared: Vec<String> = structs_of_ffi(FFI).into_iter().map(|declared| declared.name).collect();
    declared.sort();
    assert_eq!(listed, declared, "a struct of ffi.rs is not among the layouts");
}

#[test]
fn functions_have_the_headers_parameters() {
    let (ours, expected) = (functions_of_ffi(FFI), functions_of_header(&header()));
    assert_eq!(ours, expected);
    assert!(expected.len() >= 17, "{} functions", expected.len());
}

#[test]
fn refusals_have_the_headers_names_and_words() {
    let lines = compiled_lines(
        "refusals",
        "for (int n = 0; n < 256; n++)\n\
         printf(\"%d %s: %s\\n\", n, tarnoklej_refusal_name((uint8_t)n), tarnoklej_refusal_words((uint8_t)n));",
    );
    let none = |number| if number == 0 { ("DONE", "not refused") } else { ("UNKNOWN", "a number that no call gives") };
    let ours: Vec<String> = (0..=255u8)
        .map(|number| {
            let (name, words) =
                Refusal::from_number(number).map_or(none(number), |known| (known.name(), known.words()));
            format!("{number} {name}: {words}")
        })
        .collect();
    assert_eq!(ours, lines);
}

#[test]
fn the_crates_version_is_the_headers() {
    let version = compiled_lines("version", "printf(\"%s\\n\", TARNOKLEJ_VERSION);");
    assert_eq!(version, [env!("CARGO_PKG_VERSION")]);
}
