// The declarations of src/raw.rs and of c/seeds.h against the library's own source: every function of crates/seeds/src/lib.rt and every
// struct that it takes or answers with, by name, parameters and types. A slice `x: &[T]` is there a pointer `x` and a number `x_len`.

mod common;

use common::{file, snake, text};

/// A name and its type, as the library's source has it.
type Named = (String, String);

/// A struct that passes to C, or a function that is exported.
struct Item {
    name: String,
    parts: Vec<Named>,
    result: String,
}

/// What stands between two marks, and what follows.
fn between(text: &str, open: char, close: char) -> (&str, &str) {
    let start = text.find(open).expect("an opening mark") + 1;
    let end = start + text[start..].find(close).expect("a closing mark");
    (&text[start..end], &text[end + 1..])
}

/// `name: type` parts, parted by commas.
fn parts(list: &str) -> Vec<Named> {
    let parts = list.split(',').map(str::trim);
    let parts = parts.filter(|part| !part.is_empty());
    parts
        .map(|part| {
            let (name, kind) = part
                .trim_start_matches("pub ")
                .split_once(": ")
                .expect("a type");
            (name.to_string(), kind.to_string())
        })
        .collect()
}

/// The items of the library's source that follow a mark.
fn items(source: &str, mark: &str, open: char, close: char) -> Vec<Item> {
    let found = source.split(mark).skip(1);
    found
        .map(|text| {
            let name = text[..text.find(open).expect("an opening mark")].trim();
            let (list, rest) = between(text, open, close);
            let result = rest.trim_start().strip_prefix("-> ");
            let result = result.and_then(|rest| rest.split(' ').next());
            Item {
                name: name.to_string(),
                parts: parts(list),
                result: result.unwrap_or("").to_string(),
            }
        })
        .collect()
}

fn structs() -> Vec<Item> {
    let mark = "#[repr(C)] #[derive(Clone, Copy)] pub struct ";
    ["face_values", "face_numbers", "face_answers"]
        .iter()
        .flat_map(|name| items(&file(&format!("crates/{name}/src/lib.rt")), mark, '{', '}'))
        .collect()
}

fn functions() -> Vec<Item> {
    let mark = "#[unsafe(no_mangle)] pub extern \"C\" fn ";
    items(&file("crates/seeds/src/lib.rt"), mark, '(', ')')
}

/// The element of a slice type, and whether it is lent to be written.
fn slice_of(kind: &str) -> Option<(&str, bool)> {
    let of = |start| {
        kind.strip_prefix(start)
            .and_then(|rest| rest.strip_suffix(']'))
    };
    of("&[")
        .map(|e| (e, false))
        .or(of("&mut [").map(|e| (e, true)))
}

/// A parameter in Rust.
fn rust_part((name, kind): &Named) -> String {
    match slice_of(kind) {
        Some((element, true)) => format!("{name}: *mut {element}, {name}_len: usize"),
        Some((element, false)) => format!("{name}: *const {element}, {name}_len: usize"),
        None => format!("{name}: {kind}"),
    }
}

/// A type in C.
fn c_type(kind: &str) -> String {
    match kind {
        "usize" => "size_t".into(),
        "u64" => "uint64_t".into(),
        "u8" => "uint8_t".into(),
        name => format!("seeds_{}", snake(name)),
    }
}

/// A parameter in C.
fn c_part((name, kind): &Named) -> String {
    match slice_of(kind) {
        Some((element, true)) => format!("{} *{name}, size_t {name}_len", c_type(element)),
        Some((element, false)) => format!("const {} *{name}, size_t {name}_len", c_type(element)),
        None => format!("{} {name}", c_type(kind)),
    }
}

fn joined(parts: &[Named], shown: fn(&Named) -> String) -> String {
    parts.iter().map(shown).collect::<Vec<_>>().join(", ")
}

/// Without spaces and trailing commas, which layout puts in.
fn bare(text: &str) -> String {
    let text: String = text.split_whitespace().collect();
    text.replace(",)", ")").replace(",}", "}")
}

/// The declarations stand in a file in order, and it has no others: as many as begin with the mark.
fn stand_in(path: &str, mark: &str, declared: &[String]) {
    let text = bare(&file(path));
    let mut from = 0;
    for declaration in declared {
        let declaration = bare(declaration);
        let at = text[from..].find(&declaration);
        let at = at.unwrap_or_else(|| panic!("{path} has no {declaration} behind the others"));
        from += at + declaration.len();
    }
    assert_eq!(text.matches(&bare(mark)).count(), declared.len(), "{mark}");
}

#[test]
fn the_library_has_entries() {
    assert_eq!((structs().len(), functions().len()), (8, 14));
}

#[test]
fn rust_structs() {
    let field = |(name, kind): &Named| format!("pub {name}: {kind}");
    let shown = |item: &Item| {
        format!(
            "pub struct {} {{ {} }}",
            item.name,
            joined(&item.parts, field)
        )
    };
    let all: Vec<String> = structs().iter().map(shown).collect();
    stand_in("rust/src/raw.rs", "#[repr(C)]", &all);
}

#[test]
fn rust_functions() {
    let shown = |item: &Item| {
        let parts = joined(&item.parts, rust_part);
        format!("pub fn {}({parts}) -> {};", item.name, item.result)
    };
    let all: Vec<String> = functions().iter().map(shown).collect();
    stand_in("rust/src/raw.rs", "pub fn ", &all);
}

#[test]
fn c_structs() {
    let shown = |item: &Item| {
        let field = |(name, kind): &Named| format!("{} {name};", c_type(kind));
        let fields: String = item.parts.iter().map(field).collect();
        format!("typedef struct {{ {fields} }} seeds_{};", snake(&item.name))
    };
    let all: Vec<String> = structs().iter().map(shown).collect();
    stand_in("c/seeds.h", "typedef struct", &all);
}

#[test]
fn c_functions() {
    let shown = |item: &Item| {
        let parts = joined(&item.parts, c_part);
        format!("{} {}({parts});", c_type(&item.result), item.name)
    };
    let all: Vec<String> = functions().iter().map(shown).collect();
    stand_in("c/seeds.h", ");", &all);
}

#[test]
fn settings_are_made_with_the_longest_window_and_no_inverted_chain() {
    let made = "seeds_settings settings = {cells, taps, SEEDS_LONGEST_WINDOW, 0};";
    assert!(file("c/seeds.h").contains(made), "{made}");
    assert_eq!(seeds::Settings::new(3, 6).limit, seeds::LONGEST_WINDOW);
    assert_eq!(seeds::Settings::new(3, 6).invert, 0);
}

#[test]
fn the_header_has_the_version() {
    let version = format!("#define SEEDS_VERSION \"{}\"", seeds::VERSION);
    assert!(file("c/seeds.h").contains(&version), "{version}");
    let version = format!("Version: {}", seeds::VERSION);
    assert!(text("c/seeds.pc").lines().any(|line| line == version));
}
