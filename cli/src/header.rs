//! What the header of a file says, in words.

use crate::batch_text::direction;
use crate::id::Hex;
use crate::json::Object;
use edge_sst::{Header, Id};
use std::io::{self, Write};

/// The flag bits, by their numbers.
const FLAGS: [&str; 4] = ["properties", "tombstones", "dense", "inverse"];

/// The number, and the names of the bits that are set.
fn flags(header: &Header) -> String {
    let mut words = header.flags.to_string();
    for (bit, name) in FLAGS.into_iter().enumerate() {
        if header.flags >> bit & 1 != 0 {
            words = format!("{words} {name}");
        }
    }
    words
}

fn ids(header: &Header) -> [(&'static str, &Id); 3] {
    [
        ("edge type", &header.edge_type),
        ("source", &header.source),
        ("destination", &header.destination),
    ]
}

/// A line for each field, and an empty one.
pub fn print(out: &mut dyn Write, header: &Header) -> io::Result<()> {
    print_field(out, "minor", &header.minor.to_string())?;
    print_field(out, "direction", direction(header.inverse))?;
    print_field(out, "flags", &flags(header))?;
    for (name, id) in ids(header) {
        print_field(out, name, &Hex(id).to_string())?;
    }
    writeln!(out)
}

fn print_field(out: &mut dyn Write, name: &str, value: &str) -> io::Result<()> {
    writeln!(out, "{name:<11}  {value}")
}

/// The fields as those of an object; the ids have 32 hexadecimal digits.
pub fn object(header: &Header) -> Object {
    let fields = Object::new()
        .number("minor", header.minor.into())
        .string("direction", direction(header.inverse))
        .number("flags", header.flags.into());
    ids(header).into_iter().fold(fields, |fields, (name, id)| {
        fields.string(&name.replace(' ', "_"), &Hex(id).to_string())
    })
}
