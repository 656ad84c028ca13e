//! Compares the functions of the Rattle source, of the C header and of the
//! wrapper's `extern "C"` block: names, parameters and answers; and the structs
//! that they lend and answer, field by field.
//!
//! All are read as C declares them. A slice of Rattle is a pointer and a
//! length, which has no name there; an array, of Rattle or of the wrapper, is a
//! pointer to so many elements; a struct `Name` of both is `tl_name` in C.
use std::{
    collections::{BTreeMap, BTreeSet},
    fs,
    path::Path,
};

/// A parameter or an answer: its type in C, and a parameter's name, or "" where
/// there is none.
type Typed = (String, String);

/// Functions by their names: the answer, then the parameters. Structs by their
/// names in C: `struct`, then the fields.
type Declared = BTreeMap<String, Vec<Typed>>;

/// An error is what cannot be read.
type Read<T> = Result<T, String>;

const RATTLE: usize = 0;
const HEADER: usize = 1;
const WRAPPER: usize = 2;
const NAMES: [&str; 3] = ["the Rattle source", "the header", "the wrapper"];

fn texts() -> [String; 3] {
    [
        files("crates/thumb_layout/src", "rt") + &files("crates/tracker/src", "rt"),
        files("host/include", "h"),
        files("host/rust/src", "rs"),
    ]
}

/// The files of a folder with this ending, one after the other.
fn files(folder: &str, ending: &str) -> String {
    let root = Path::new(env!("CARGO_MANIFEST_DIR")).join("../..");
    let entries = fs::read_dir(root.join(folder)).expect(folder);
    let mut paths: Vec<_> = entries.map(|entry| entry.unwrap().path()).collect();
    paths.retain(|path| path.extension().is_some_and(|e| e == ending));
    paths.sort();
    let texts = paths.iter().map(|path| fs::read_to_string(path).unwrap());
    texts.collect()
}

/// Words, and other signs one by one, without comments.
fn tokens(mut text: &str) -> Vec<&str> {
    let in_word = |c: char| c.is_alphanumeric() || c == '_';
    let mut tokens = vec![];
    loop {
        text = text.trim_start();
        let Some(first) = text.chars().next() else {
            return tokens;
        };
        let after = |end: &str| text.find(end).map_or("", |at| &text[at + end.len()..]);
        if text.starts_with("//") {
            text = after("\n");
        } else if text.starts_with("/*") {
            text = after("*/");
        } else {
            let word = text.find(|c| !in_word(c)).unwrap_or(text.len());
            let (token, rest) = text.split_at(word.max(first.len_utf8()));
            tokens.push(token);
            text = rest;
        }
    }
}

/// What stands behind these words, each time that they occur.
fn behind<'a>(tokens_of_text: &'a [&'a str], words: &str) -> Vec<&'a [&'a str]> {
    let words = tokens(words);
    let starts = (0..tokens_of_text.len()).map(|i| &tokens_of_text[i..]);
    let found = starts.filter(|rest| rest.starts_with(&words));
    found.map(|rest| &rest[words.len()..]).collect()
}

// ---- Rattle and Rust

fn rattle(text: &str) -> Read<Declared> {
    let tokens = tokens(text);
    let declared = behind(&tokens, r#"#[unsafe(no_mangle)] pub extern "C" fn"#);
    let functions = declared.into_iter().map(|d| function(d, true));
    functions.chain(structs(&tokens)).collect()
}

fn wrapper(text: &str) -> Read<Declared> {
    let tokens = tokens(text);
    let blocks = behind(&tokens, r#"extern "C" {"#);
    let inside = blocks.iter().filter_map(|b| b.split(|t| *t == "}").next());
    let declared = inside.flat_map(|block| behind(block, "fn"));
    let functions = declared.map(|d| function(d, false));
    functions.chain(structs(&tokens)).collect()
}

/// The structs that are laid out as in C.
fn structs(tokens: &[&str]) -> Vec<Read<(String, Vec<Typed>)>> {
    let declared = behind(tokens, "#[repr(C)]").into_iter();
    declared.map(rust_struct).collect()
}

/// The struct that these tokens, after `#[repr(C)]`, begin with.
fn rust_struct(tokens: &[&str]) -> Read<(String, Vec<Typed>)> {
    let unread = || tokens[..tokens.len().min(9)].join(" ");
    let start = tokens.iter().position(|t| *t == "struct");
    let [name, "{", rest @ ..] = &tokens[start.ok_or_else(unread)? + 1..] else {
        return Err(unread());
    };
    let end = rest.iter().position(|t| *t == "}").ok_or_else(unread)?;
    let mut fields = vec![("struct".into(), String::new())];
    for field in rest[..end].split(|t| *t == ",").filter(|f| !f.is_empty()) {
        let (["pub", name, ":", kind @ ..] | [name, ":", kind @ ..]) = field else {
            return Err(field.join(" "));
        };
        let kind = match kind {
            [item] => c_type(item)?,
            ["[", item, ";", n, "]"] => format!("{}[{n}]", c_type(item)?),
            _ => return Err(field.join(" ")),
        };
        fields.push((kind, name.to_string()));
    }
    Ok((c_type(name)?, fields))
}

/// The function that these tokens, after `fn`, begin with. Only Rattle lends
/// slices.
fn function(tokens: &[&str], slices: bool) -> Read<(String, Vec<Typed>)> {
    let [name, "(", rest @ ..] = tokens else {
        return Err(tokens[..tokens.len().min(9)].join(" "));
    };
    let end = rest.iter().position(|t| *t == ")").ok_or(*name)?;
    let answer = match &rest[end + 1..] {
        ["-", ">", answer, ..] => c_type(answer)?,
        _ => "void".into(),
    };
    let mut typed = vec![(answer, String::new())];
    for parameter in rest[..end].split(|t| *t == ",").filter(|p| !p.is_empty()) {
        let [name, ":", lent @ ..] = parameter else {
            return Err(parameter.join(" "));
        };
        typed.push((passed(lent, slices)?, name.to_string()));
        if let ["&", "[", _, "]"] | ["&", "mut", "[", _, "]"] = lent {
            typed.push(("size_t".into(), String::new()));
        }
    }
    Ok((name.to_string(), typed))
}

/// What is passed for a parameter of this type; of a slice, its pointer.
fn passed(tokens: &[&str], slices: bool) -> Read<String> {
    Ok(match tokens {
        [name] => c_type(name)?,
        ["&", "[", name, "]"] if slices => format!("const {} *", c_type(name)?),
        ["&", "mut", "[", name, "]"] if slices => format!("{} *", c_type(name)?),
        ["&", "[", name, ";", n, "]"] => format!("const {}[{n}]", c_type(name)?),
        ["&", "mut", "[", name, ";", n, "]"] => format!("{}[{n}]", c_type(name)?),
        ["&", name] | ["*", "const", name] => format!("const {} *", c_type(name)?),
        ["&", "mut", name] | ["*", "mut", name] => format!("{} *", c_type(name)?),
        _ => return Err(tokens.join(" ")),
    })
}

fn c_type(name: &str) -> Read<String> {
    Ok(match name {
        "u8" => "uint8_t".into(),
        "u16" => "uint16_t".into(),
        "u32" => "uint32_t".into(),
        "i32" => "int32_t".into(),
        "usize" => "size_t".into(),
        "f32" => "float".into(),
        _ if name.starts_with(|c: char| c.is_ascii_uppercase()) => {
            let letters = name.chars().map(|c| match c {
                'A'..='Z' => format!("_{}", c.to_ascii_lowercase()),
                _ => c.into(),
            });
            format!("tl{}", letters.collect::<String>())
        }
        _ => return Err(name.into()),
    })
}

// ---- C

fn header(text: &str) -> Read<Declared> {
    let lines = text.lines().filter(|line| !line.starts_with('#'));
    let text = lines.collect::<Vec<_>>().join("\n");
    let tokens = tokens(&text);
    let declarations = tokens.split(|t| [";", "{", "}"].contains(t));
    let functions = declarations.filter(|tokens| tokens.contains(&"("));
    let structs = behind(&tokens, "typedef struct {").into_iter();
    functions
        .map(c_function)
        .chain(structs.map(c_struct))
        .collect()
}

/// The struct that these tokens, after `typedef struct {`, begin with.
fn c_struct(tokens: &[&str]) -> Read<(String, Vec<Typed>)> {
    let end = tokens.iter().position(|t| *t == "}").unwrap_or(0);
    let (body, ["}", name, ";", ..]) = tokens.split_at(end) else {
        return Err(tokens[..tokens.len().min(9)].join(" "));
    };
    let mut fields = vec![("struct".into(), String::new())];
    for declaration in body.split(|t| *t == ";").filter(|d| !d.is_empty()) {
        let (kind, names) = declaration.split_at(1);
        for name in names.split(|t| *t == ",") {
            fields.push(c_typed(&[kind, name].concat())?);
        }
    }
    Ok((name.to_string(), fields))
}

fn c_function(tokens: &[&str]) -> Read<(String, Vec<Typed>)> {
    let open = tokens.iter().position(|t| *t == "(").unwrap_or(0);
    let ([answer @ .., name], ["(", parameters @ .., ")"]) = tokens.split_at(open) else {
        return Err(tokens.join(" "));
    };
    let mut typed = vec![c_typed(answer)?];
    if parameters != ["void"] {
        for parameter in parameters.split(|t| *t == ",") {
            typed.push(c_typed(parameter)?);
        }
    }
    Ok((name.to_string(), typed))
}

fn c_typed(tokens: &[&str]) -> Read<Typed> {
    let (constant, rest) = match tokens {
        ["const", rest @ ..] => ("const ", rest),
        rest => ("", rest),
    };
    let (kind, name) = match rest {
        [kind] => (kind.to_string(), ""),
        [kind, "*"] => (format!("{kind} *"), ""),
        [kind, "*", name] => (format!("{kind} *"), *name),
        [kind, name, "[", n, "]"] => (format!("{kind}[{n}]"), *name),
        [kind, name] => (kind.to_string(), *name),
        _ => return Err(tokens.join(" ")),
    };
    Ok((constant.to_string() + &kind, name.to_string()))
}

// ---- the comparison

/// What cannot be read, or each function and struct that the header does not
/// declare as the Rattle source, or the wrapper as the header.
fn faults(texts: &[String; 3]) -> Vec<String> {
    let readers = [rattle, header, wrapper];
    let read = [RATTLE, HEADER, WRAPPER].map(|i| readers[i](&texts[i]));
    let unread = read.iter().zip(NAMES).filter_map(|(read, name)| {
        let unread = read.as_ref().err()?;
        Some(format!("{name}: cannot be read: {unread}"))
    });
    let mut faults: Vec<_> = unread.collect();
    let read = read.map(Result::unwrap_or_default);
    for pair in [[RATTLE, HEADER], [HEADER, WRAPPER]] {
        let names = pair.map(|i| read[i].keys()).into_iter().flatten();
        for name in names.collect::<BTreeSet<_>>() {
            let [one, other] = pair.map(|i| read[i].get(name));
            if !one.zip(other).is_some_and(|(one, other)| alike(one, other)) {
                let [one, other] = [one, other].map(shown);
                let [here, there] = pair.map(|i| NAMES[i]);
                faults.push(format!("{name}: {here} has {one}, {there} {other}"));
            }
        }
    }
    faults
}

/// Whether the types agree, and the names where both have one.
fn alike(one: &[Typed], other: &[Typed]) -> bool {
    let alike = |((kind, name), (other_kind, other_name)): (&Typed, &Typed)| {
        let unnamed = name.is_empty() || other_name.is_empty();
        kind == other_kind && (unnamed || name == other_name)
    };
    one.len() == other.len() && one.iter().zip(other).all(alike)
}

fn shown(declared: Option<&Vec<Typed>>) -> String {
    let Some([(answer, _), parameters @ ..]) = declared.map(Vec::as_slice) else {
        return "none".into();
    };
    let parameters = parameters
        .iter()
        .map(|(kind, name)| format!("{kind} {name}"));
    let parameters = parameters.collect::<Vec<_>>().join(", ");
    format!("({parameters}) -> {answer}")
}

#[test]
fn the_declarations_agree() {
    assert_eq!(faults(&texts()), [""; 0]);
}

/// The static library exports the functions of `thumb_layout`.
#[test]
fn the_static_library_exports_them() {
    let of = |folder| {
        let mut declared = rattle(&files(folder, "rt")).unwrap();
        declared.retain(|_, typed| typed[0].0 != "struct");
        declared
    };
    let exports = of("crates/thumb_layout_c/src");
    assert!(!exports.is_empty());
    assert_eq!(exports, of("crates/thumb_layout/src"));
}

/// One change each: the text, what is replaced, by what.
#[rustfmt::skip]
const CHANGES: &[(usize, &str, &str)] = &[
    // two parameters exchanged, of one type and of two
    (RATTLE, "order: &[u8], x: f32, y: f32", "order: &[u8], y: f32, x: f32"),
    (HEADER, "float x, float y, uint16_t", "float y, float x, uint16_t"),
    (WRAPPER, "len: usize, x: f32, y: f32", "len: usize, y: f32, x: f32"),
    (RATTLE, "order: &[u8], x: f32", "x: f32, order: &[u8]"),
    (HEADER, "size_t order_len, float x", "float x, size_t order_len"),
    (WRAPPER, "order_len: usize, x: f32", "x: f32, order_len: usize"),
    // a parameter too few, and one too many
    (RATTLE, ", previous: u16) -> i32", ") -> i32"),
    (HEADER, "size_t order_len, float x", "float x"),
    (WRAPPER, "order_len: usize, x: f32", "x: f32"),
    (RATTLE, "previous: u16) -> i32", "previous: u16, w: f32) -> i32"),
    (HEADER, ", uint16_t previous", ", uint16_t previous, float w"),
    (WRAPPER, ", previous: u16) -> i32", ", previous: u16, w: f32) -> i32"),
    // another name
    (RATTLE, "local_side_camera: u8", "local: u8"),
    (HEADER, "size_t order_len, float x", "size_t length, float x"),
    (WRAPPER, "order_len: usize, x: f32", "length: usize, x: f32"),
    // another type
    (RATTLE, "previous: u16) -> i32", "previous: u32) -> i32"),
    (HEADER, "uint16_t previous", "uint32_t previous"),
    (WRAPPER, "previous: u16) -> i32", "previous: u32) -> i32"),
    (RATTLE, "area: &mut [f32; 4]", "area: &mut [i32; 4]"),
    (HEADER, "float area[4]", "int32_t area[4]"),
    (WRAPPER, "area: &mut [f32; 4]", "area: &mut [i32; 4]"),
    // an input that could be written to
    (RATTLE, "order: &[u8], x: f32", "order: &mut [u8], x: f32"),
    (HEADER, "tl_touch(const uint8_t", "tl_touch(uint8_t"),
    (WRAPPER, "tl_touch(order: *const u8", "tl_touch(order: *mut u8"),
    (RATTLE, "numbers: &[i32; 12]", "numbers: &mut [i32; 12]"),
    (HEADER, "const int32_t numbers[12]", "int32_t numbers[12]"),
    (WRAPPER, "numbers: &[i32; 12]", "numbers: &mut [i32; 12]"),
    // another number of elements, or none
    (RATTLE, "sheet: &mut [u8; 1024]", "sheet: &mut [u8; 788]"),
    (HEADER, "uint8_t sheet[1024]", "uint8_t sheet[788]"),
    (WRAPPER, "sheet: &mut [u8; 1024]", "sheet: &mut [u8; 788]"),
    (RATTLE, "sheet: &mut [u8; 1024]", "sheet: &mut [u8]"),
    (HEADER, "uint8_t sheet[1024]", "uint8_t *sheet"),
    (WRAPPER, "sheet: &mut [u8; 1024]", "sheet: *mut u8"),
    // lists and arrays of f32: another type, one that could be written to, no length, another number
    (RATTLE, "saved: &[f32],\n", "saved: &[i32],\n"),
    (HEADER, "const float *saved", "const int32_t *saved"),
    (WRAPPER, "saved: *const f32", "saved: *const i32"),
    (RATTLE, "saved: &[f32],\n", "saved: &mut [f32],\n"),
    (HEADER, "const float *saved", "float *saved"),
    (WRAPPER, "saved: *const f32", "saved: *mut f32"),
    (RATTLE, "cutouts: &[f32],\n", "cutouts: &f32,\n"),
    (HEADER, "size_t cutouts_len, ", ""),
    (WRAPPER, "cutouts_len: usize,", ""),
    (RATTLE, "numbers: &[f32; 9],\n", "numbers: &[f32; 10],\n"),
    (HEADER, "float numbers[9]", "float numbers[10]"),
    (WRAPPER, "        numbers: &[f32; 9]", "        numbers: &[f32; 10]"),
    // another answer, or none
    (RATTLE, "previous: u16) -> i32", "previous: u16) -> u32"),
    (HEADER, "int32_t tl_touch", "uint32_t tl_touch"),
    (WRAPPER, "previous: u16) -> i32", "previous: u16) -> u32"),
    (RATTLE, "previous: u16) -> i32", "previous: u16)"),
    (HEADER, "int32_t tl_touch", "void tl_touch"),
    (WRAPPER, "previous: u16) -> i32", "previous: u16)"),
    // a function too few, and one too many
    (RATTLE, "pub extern \"C\" fn tl_touch(", "pub fn tl_touch("),
    (HEADER, "int32_t tl_touch(", "// int32_t tl_touch("),
    (WRAPPER, "    fn tl_touch(", "    // fn tl_touch("),
    (RATTLE, "\nfn minus(", "\n#[unsafe(no_mangle)]\npub extern \"C\" fn minus("),
    (HEADER, "int32_t tl_touch(", "void tl_none(void);\nint32_t tl_touch("),
    (WRAPPER, "    fn tl_touch(", "    fn tl_none();\n    fn tl_touch("),
    // a tracker that could not be written to
    (RATTLE, "tl_lift(t: &mut Tracker", "tl_lift(t: &Tracker"),
    (HEADER, "tl_lift(tl_tracker *t", "tl_lift(const tl_tracker *t"),
    (WRAPPER, "tl_lift(t: &mut Tracker", "tl_lift(t: &Tracker"),
    // a struct with its fields exchanged, of another type, of another number; one too few
    (RATTLE, "    pub held: u16,\n    pub mask: u16", "    pub mask: u16,\n    pub held: u16"),
    (HEADER, "uint16_t held, mask;", "uint16_t mask, held;"),
    (WRAPPER, "    pub held: u16,\n    pub mask: u16", "    pub mask: u16,\n    pub held: u16"),
    (RATTLE, "pub combined: i32", "pub combined: u32"),
    (HEADER, "int32_t mask, combined;", "int32_t mask; uint32_t combined;"),
    (WRAPPER, "    combined: i32", "    combined: u32"),
    (RATTLE, "pub fingers: [Finger; 10]", "pub fingers: [Finger; 9]"),
    (HEADER, "tl_finger fingers[10];", "tl_finger fingers[9];"),
    (WRAPPER, "pub fingers: [Finger; 10]", "pub fingers: [Finger; 9]"),
    (RATTLE, "#[repr(C)]\n#[derive(Clone, Copy)]\npub struct Masks", "pub struct Masks"),
    (HEADER, "} tl_masks;", "} tl_two_masks;"),
    (WRAPPER, "#[repr(C)]\nstruct Masks", "struct Masks"),
    // what cannot be read
    (RATTLE, "pub mask: i32", "pub mask: &i32"),
    (WRAPPER, "    mask: i32", "    mask: &i32"),
    (RATTLE, "previous: u16) -> i32", "previous: [u16; 4]) -> i32"),
    (HEADER, "uint16_t previous", "unsigned short previous"),
    (WRAPPER, "tl_touch(order: *const u8", "tl_touch(order: &[u8]"),
];

#[test]
fn every_change_is_a_fault() {
    for &(i, old, new) in CHANGES {
        let mut texts = texts();
        assert_eq!(texts[i].matches(old).count(), 1, "{old} in {}", NAMES[i]);
        texts[i] = texts[i].replace(old, new);
        assert_ne!(faults(&texts), [""; 0], "{new} in {}", NAMES[i]);
    }
}

#[test]
fn names_that_are_left_out_are_no_fault() {
    let mut texts = texts();
    texts[HEADER] = texts[HEADER].replace("float x, float y", "float, // across\n float");
    assert_eq!(faults(&texts), [""; 0]);
}

#[test]
fn functions_over_structs() {
    let texts = [
        "#[unsafe(no_mangle)]\npub extern \"C\" fn tl_lift(t: &mut Tracker, by: &OneFinger) -> Masks {}",
        "tl_masks tl_lift(tl_tracker *t, const tl_one_finger *by);",
        "unsafe extern \"C\" { safe fn tl_lift(t: &mut Tracker, by: &OneFinger) -> Masks; }",
    ];
    let texts = texts.map(String::from);
    assert_eq!(faults(&texts), [""; 0]);
    let changes = [
        ("tl_masks tl_lift", "tl_masks *tl_lift"),
        ("tl_masks tl_lift", "tl_tracker tl_lift"),
        ("tl_tracker *t", "const tl_tracker *t"),
        ("tl_tracker *t", "tl_tracker t"),
        ("tl_tracker *t", "tl_seats *t"),
        ("const tl_one_finger", "tl_one_finger"),
    ];
    for (old, new) in changes {
        let mut texts = texts.clone();
        texts[HEADER] = texts[HEADER].replacen(old, new, 1);
        assert_eq!(faults(&texts).len(), 2, "{new}");
    }
}
