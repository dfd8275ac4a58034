//! The Rust types against the C header: the header is read, and its structs, numbers and functions are held to what this crate has.
use mandrozsi::raw::{Reply, Said};
use mandrozsi::{Drive, Entry, Refusal, LIST};
use std::mem::{align_of, offset_of, size_of};

const HEADER: &str = include_str!("../../c/mandrozsi.h");

/// A text without its parts from one mark to the next of another.
fn without(text: &str, begin: &str, end: &str) -> String {
    let mut out = String::new();
    let mut rest = text;
    while let Some((before, after)) = rest.split_once(begin) {
        out.push_str(before);
        rest = after.split_once(end).expect("a part ends").1;
    }
    out + rest
}

/// The header without its comments and without the functions that it has itself.
fn code() -> String {
    without(&without(HEADER, "/*", "*/"), "static inline", "\n}\n")
}

/// The fields of a struct of the header with their offsets, its size and its alignment: C's layout, each member at the next multiple of its own
/// alignment, and the size a multiple of the largest.
fn layout(code: &str, name: &str) -> (Vec<(String, usize)>, usize, usize) {
    let body = code
        .split_once(&format!("typedef struct {name} {{"))
        .expect("the struct is there")
        .1
        .split_once('}')
        .unwrap()
        .0;
    let (mut fields, mut at, mut largest) = (Vec::new(), 0usize, 1);
    for member in body.split(';').map(str::trim).filter(|m| !m.is_empty()) {
        let (kind, field) = member.split_once(' ').unwrap();
        let (size, alignment) = match kind {
            "uint16_t" => (2, 2),
            "uint64_t" => (8, 8),
            _ => {
                let (_, size, alignment) = layout(code, kind);
                (size, alignment)
            }
        };
        at = at.next_multiple_of(alignment);
        fields.push((field.to_string(), at));
        at += size;
        largest = largest.max(alignment);
    }
    (fields, at.next_multiple_of(largest), largest)
}

fn named(pairs: &[(&str, usize)]) -> Vec<(String, usize)> {
    pairs.iter().map(|&(name, at)| (name.to_string(), at)).collect()
}

#[test]
fn structs() {
    let code = code();
    let drive = [
        ("capacity", offset_of!(Drive, capacity)),
        ("position", offset_of!(Drive, position)),
        ("round", offset_of!(Drive, round)),
    ];
    assert_eq!(layout(&code, "mandrozsi_drive"), (named(&drive), size_of::<Drive>(), align_of::<Drive>()));
    let said = [
        ("number", offset_of!(Said, number)),
        ("first", offset_of!(Said, first)),
        ("second", offset_of!(Said, second)),
        ("third", offset_of!(Said, third)),
        ("fourth", offset_of!(Said, fourth)),
    ];
    assert_eq!(layout(&code, "mandrozsi_said"), (named(&said), size_of::<Said>(), align_of::<Said>()));
    let reply = [("drive", offset_of!(Reply, drive)), ("said", offset_of!(Reply, said))];
    assert_eq!(layout(&code, "mandrozsi_reply"), (named(&reply), size_of::<Reply>(), align_of::<Reply>()));
    let entry = [
        ("kind", offset_of!(Entry, kind)),
        ("name", offset_of!(Entry, name)),
        ("weight", offset_of!(Entry, weight)),
        ("number", offset_of!(Entry, number)),
        ("value", offset_of!(Entry, value)),
    ];
    assert_eq!(layout(&code, "mandrozsi_entry"), (named(&entry), size_of::<Entry>(), align_of::<Entry>()));
    assert_eq!(
        (size_of::<Drive>(), size_of::<Said>(), size_of::<Reply>(), size_of::<Entry>()),
        (16, 40, 56, 16)
    );
}

#[test]
fn numbers() {
    let code = code();
    let body = code.split_once("enum mandrozsi_number {").unwrap().1.split_once('}').unwrap().0;
    let lines: Vec<_> = body
        .split(',')
        .map(|line| line.trim().split_once(" = ").expect("NAME = number"))
        .collect();
    assert_eq!(lines[0], ("MANDROZSI_DONE", "0"));
    assert_eq!(lines[13], ("MANDROZSI_WAITING", "13"));
    assert_eq!(lines.len(), 19);
    let refusals = lines[1..].iter().filter(|line| line.1 != "13");
    for (refusal, (name, number)) in Refusal::ALL.iter().zip(refusals) {
        let word = format!("{refusal:?}").split(' ').next().unwrap().to_uppercase();
        assert_eq!(*name, format!("MANDROZSI_{word}"));
        assert_eq!(number.parse(), Ok(refusal.number()));
        assert_eq!(Refusal::from_number(refusal.number(), 0), Some(*refusal));
    }
    assert_eq!((Refusal::from_number(0, 0), Refusal::from_number(13, 0)), (None, None));
    let room = Refusal::from_number(10, 3).unwrap();
    assert_eq!((room, room.value()), (Refusal::Room { idle: 3 }, 3));
    assert_eq!(Refusal::from_number(11, 3).unwrap().value(), 0);
}

#[test]
fn limits() {
    for (name, value) in [
        ("LARGEST", Drive::LARGEST),
        ("BLOCK_BYTES", Drive::BLOCK_BYTES),
        ("LEAVES_PER_BLOCK", Drive::LEAVES_PER_BLOCK),
        ("PIECES_PER_BLOCK", Drive::PIECES_PER_BLOCK),
        ("LIST", LIST),
    ] {
        assert!(HEADER.contains(&format!("#define MANDROZSI_{name} {value}\n")), "{name}");
    }
}

/// The kinds of a declaration's parameters.
fn kinds(parameters: &str, rust: bool) -> Vec<String> {
    let kind = |p: &str| {
        let kind = if rust {
            p.split_once(": ").unwrap().1
        } else {
            p.rsplit_once([' ', '*']).unwrap().0
        };
        let pointer = if rust { kind.starts_with('*') } else { p.contains('*') };
        let shared = kind.contains("const");
        let bare = ["u16", "uint16_t"].iter().any(|t| kind.contains(t)).then_some("u16");
        let bare = bare.or(["u64", "uint64_t"].iter().any(|t| kind.contains(t)).then_some("u64"));
        let bare = bare.or(["*mut u8", "*const u8", "uint8_t"].iter().any(|t| kind.contains(t)).then_some("u8"));
        let bare = bare.or((kind.contains("usize") || kind.contains("size_t")).then_some("size"));
        let bare = bare.or(kind.to_lowercase().contains("entry").then_some("entry"));
        format!(
            "{}{}{}",
            if shared { "const " } else { "" },
            bare.unwrap_or("drive"),
            if pointer { " *" } else { "" }
        )
    };
    parameters.split(',').map(str::trim).filter(|p| !p.is_empty()).map(kind).collect()
}

/// The functions that a text declares, in its order: what each gives back, its name, the kinds of its parameters.
fn declared(text: &str, rust: bool) -> Vec<(&str, &str, Vec<String>)> {
    let mut found = Vec::new();
    for (i, _) in text.match_indices("mandrozsi_") {
        let (before, from) = text.split_at(i);
        let name = from.split(|c: char| !c.is_alphanumeric() && c != '_').next().unwrap();
        let Some(rest) = from[name.len()..].strip_prefix('(') else { continue };
        let (parameters, after) = rest.split_once(')').unwrap();
        let back = if rust {
            after.trim_start().strip_prefix("-> ").unwrap().split(';').next().unwrap()
        } else {
            before.trim_end().rsplit([' ', '\n', ';']).next().unwrap()
        };
        let back = back.to_lowercase();
        let back = ["said", "drive", "reply"].into_iter().find(|kind| back.ends_with(kind)).unwrap();
        found.push((back, name, kinds(parameters, rust)));
    }
    found
}

#[test]
fn functions() {
    let code = code();
    let header = declared(&code, false);
    let rust = declared(include_str!("../src/raw.rs"), true);
    assert_eq!(header.len(), 41);
    assert_eq!(header, rust);
    let alone: Vec<_> = header.iter().filter(|(back, ..)| *back == "said").map(|(_, name, _)| *name).collect();
    let expected = ["to_pieces", "to_leaves", "fetch", "pair_slot_here", "share_slot_here", "walk"].map(|name| format!("mandrozsi_{name}"));
    assert_eq!(alone, expected);
}
