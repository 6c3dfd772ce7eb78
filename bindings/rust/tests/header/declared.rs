//! Structs and functions as the header and src/ffi.rs declare them, in the types of Rust.

/// A struct: its name in Rust, and its members with their types.
#[derive(PartialEq, Eq, Debug)]
pub struct Declared {
    pub name: String,
    pub members: Vec<(String, String)>,
}

/// A function: its name, its parameters with their types, and the type of its answer.
#[derive(PartialEq, Eq, Debug)]
pub struct Function {
    pub name: String,
    pub parameters: Vec<(String, String)>,
    pub answer: String,
}

/// The text without the comments of C.
fn without_comments(text: &str) -> String {
    let mut rest = text;
    let mut code = String::new();
    while let Some((before, comment)) = rest.split_once("/*") {
        code += before;
        rest = comment.split_once("*/").expect("a comment ends").1;
    }
    code + rest
}

/// The name in Rust of a type of C, which is not a pointer.
fn plain_type(name: &str) -> String {
    match name {
        "uint8_t" => "u8".into(),
        "uint16_t" => "u16".into(),
        "uint64_t" => "u64".into(),
        "int64_t" => "i64".into(),
        "size_t" => "usize".into(),
        "double" => "f64".into(),
        _ => {
            let own = name.strip_prefix("tarnoklej_").unwrap_or_else(|| panic!("unknown type {name}"));
            own[..1].to_uppercase() + &own[1..]
        }
    }
}

/// The name and the type in Rust of a declaration such as `const uint8_t *message`, `size_t size` or `refused[15]` of a type.
fn declaration(text: &str) -> (String, String) {
    let (kind, name) = text.trim().rsplit_once([' ', '*']).unwrap_or_else(|| panic!("unknown declaration {text}"));
    let pointer = text.contains('*');
    let constant = kind.trim_start().starts_with("const ");
    let kind = plain_type(kind.trim().trim_start_matches("const ").trim_end_matches('*').trim());
    let kind = match (pointer, constant) {
        (true, true) => format!("*const {kind}"),
        (true, false) => format!("*mut {kind}"),
        (false, _) => kind,
    };
    match name.trim_end_matches(']').split_once('[') {
        Some((name, count)) => (name.to_string(), format!("[{kind}; {count}]")),
        None => (name.to_string(), kind),
    }
}

/// The members of one line of a struct, such as `int64_t x, y, z`.
fn members(text: &str) -> Vec<(String, String)> {
    let (kind, names) = text.trim().split_once(' ').expect("a type and names");
    names.split(',').map(|name| declaration(&format!("{kind} {}", name.trim()))).collect()
}

/// The structs of the header, sorted by name.
pub fn structs_of_header(header: &str) -> Vec<Declared> {
    let code = without_comments(header);
    let mut structs: Vec<Declared> = code
        .split("typedef struct {")
        .skip(1)
        .map(|text| {
            let (body, behind) = text.split_once('}').expect("a struct ends");
            let name = behind.split_once(';').expect("a struct has a name").0.trim();
            let lines = body.split(';').filter(|line| !line.trim().is_empty());
            Declared { name: plain_type(name), members: lines.flat_map(members).collect() }
        })
        .collect();
    structs.sort_by(|one, other| one.name.cmp(&other.name));
    structs
}

/// The structs of src/ffi.rs, sorted by name.
pub fn structs_of_ffi(ffi: &str) -> Vec<Declared> {
    let mut structs: Vec<Declared> = ffi
        .split("pub struct ")
        .skip(1)
        .map(|text| {
            let (name, body) = text.split_once(" {").expect("a struct has members");
            let lines = body.split_once("\n}").expect("a struct ends").0.lines();
            let members =
                lines.filter_map(|line| line.trim().strip_prefix("pub ")?.strip_suffix(',')?.split_once(": "));
            let members = members.map(|(name, kind)| (name.to_string(), kind.to_string())).collect();
            Declared { name: name.to_string(), members }
        })
        .collect();
    structs.sort_by(|one, other| one.name.cmp(&other.name));
    structs
}

/// The functions of the header that the library exports, in their order.
pub fn functions_of_header(header: &str) -> Vec<Function> {
    let code = without_comments(header);
    let statements = code.split([';', '{', '}']).map(|text| text.split_whitespace().collect::<Vec<_>>().join(" "));
    statements
        .filter(|text| text.ends_with(')') && !text.starts_with("static ") && text.contains(" tarnoklej_"))
        .map(|text| {
            let (head, parameters) = text.trim_end_matches(')').split_once('(').expect("parameters");
            let (answer, name) = head.rsplit_once(' ').expect("a type and a name");
            let parameters = parameters.split(", ").map(declaration).collect();
            Function { name: name.to_string(), parameters, answer: plain_type(answer) }
        })
        .collect()
}

/// The functions that src/ffi.rs declares, in their order.
pub fn functions_of_ffi(ffi: &str) -> Vec<Function> {
    let block = ffi.split_once("extern \"C\" {").expect("the declarations").1.split_once("\n}").expect("their end").0;
    block
        .split("pub fn ")
        .skip(1)
        .map(|text| {
            let (name, rest) = text.split_once('(').expect("parameters");
            let (parameters, rest) = rest.split_once(')').expect("their end");
            let answer = rest.trim().strip_prefix("-> ").expect("an answer").split(';').next().expect("its type");
            let parameters = parameters.split(',').map(str::trim).filter(|text| !text.is_empty());
            let parameters = parameters.map(|text| text.split_once(": ").expect("a name and a type"));
            let parameters = parameters.map(|(name, kind)| (name.to_string(), kind.to_string())).collect();
            Function { name: name.to_string(), parameters, answer: answer.to_string() }
        })
        .collect()
}
