//! What the kinds and codecs of sections are called.

use edge_sst::Section;

const NAMES: [(u64, &str); 8] = [
    (1, "keys"),
    (2, "offsets"),
    (3, "partners"),
    (4, "log numbers"),
    (5, "tombstones"),
    (6, "fences"),
    (0x0100, "property stream"),
    (0x0200, "start index"),
];

/// The name of a kind; one that is skipped has none.
pub fn name(kind: u64) -> Option<&'static str> {
    let known = NAMES.iter().find(|(number, _)| *number == kind);
    known.map(|(_, name)| *name)
}

/// The number of a kind as the format's papers write it.
pub fn number(kind: u64) -> String {
    match kind {
        0..=6 => kind.to_string(),
        _ => format!("0x{kind:04x}"),
    }
}

pub fn codec(codec: u64) -> String {
    match codec {
        0 => "raw".to_string(),
        _ => codec.to_string(),
    }
}

/// A section in words: its kind's name or number, and its own name if it has one.
pub fn describe(section: &Section) -> String {
    let kind = match name(section.kind) {
        Some(name) => name.to_string(),
        None => format!("kind {}", number(section.kind)),
    };
    match section.name {
        [] => kind,
        name => format!("{kind} '{}'", printable(name)),
    }
}

/// A section's name for people: bytes that are no printable text stand as `\xNN`.
pub fn printable(name: &[u8]) -> String {
    let mut text = String::new();
    for chunk in name.utf8_chunks() {
        for c in chunk.valid().chars() {
            match c.is_control() {
                true => text.extend(c.escape_default()),
                false => text.push(c),
            }
        }
        for byte in chunk.invalid() {
            text.push_str(&format!("\\x{byte:02x}"));
        }
    }
    text
}
