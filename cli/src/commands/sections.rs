use super::Command;
use crate::arguments::{Arguments, JSON};
use crate::failure::{Failure, Status};
use crate::header;
use crate::input::{self, Name};
use crate::json::Object;
use crate::kinds;
use crate::output;
use crate::place::{refused, Source};
use crate::watch::Watch;
use edge_sst::{EdgeSst, Header, Refusal, Section};
use std::io::{self, Write};

pub const COMMAND: Command = Command {
    name: "sections",
    usage: "[--json] FILE",
    summary: "The header and the section table of a file",
    help: "\
A line for each field of the header: minor version, direction, flags and the ids of the
edge type, the source label and the destination label; no checksum covers them. Then a
line for each entry of the table, skipped kinds too: its number, kind, codec, offset,
length, stored checksum and name. The file is opened, which checks its frame, keys,
offsets, fences and the order of its start index; 'check' also compares the checksums.

  --json  one object with \"header\" and \"sections\"; a name that is not UTF-8 is
          null, and \"name_hex\" has its bytes
",
    choices: &[&JSON],
    run,
};

fn run(arguments: &Arguments, watch: &Watch) -> Result<Status, Failure> {
    let file = arguments.file("file")?;
    let working = watch.begin(&file);
    let bytes = input::edge_file(&file)?;
    let (header, sections) =
        read(&bytes).map_err(|refusal| refused(&file, &Source::File(&bytes), refusal))?;
    drop(working);
    output::print(|out| match arguments.has(&JSON) {
        true => writeln!(out, "{}", object(&file, &header, &sections)),
        false => print(out, &header, &sections),
    })?;
    Ok(Status::Fine)
}

fn read(bytes: &[u8]) -> Result<(Header, Vec<Section<'_>>), Refusal> {
    let opened = EdgeSst::open(bytes)?;
    Ok((opened.header()?, opened.sections()?))
}

fn print(out: &mut dyn Write, header: &Header, sections: &[Section]) -> io::Result<()> {
    header::print(out, header)?;
    let heads = [
        "entry", "kind", "codec", "offset", "length", "checksum", "name",
    ];
    print_row(out, heads.map(str::to_string))?;
    for (entry, section) in sections.iter().enumerate() {
        let kind = kinds::number(section.kind);
        let row = [
            entry.to_string(),
            format!("{kind} {}", kinds::name(section.kind).unwrap_or("skipped")),
            kinds::codec(section.codec),
            section.start.to_string(),
            section.len.to_string(),
            format!("{:016x}", section.sum),
            kinds::printable(section.name),
        ];
        print_row(out, row)?;
    }
    Ok(())
}

fn print_row(out: &mut dyn Write, row: [String; 7]) -> io::Result<()> {
    let [entry, kind, codec, offset, length, sum, name] = row;
    let line =
        format!("{entry:>5}  {kind:<22} {codec:<5} {offset:>10} {length:>10}  {sum:<16}  {name}");
    writeln!(out, "{}", line.trim_end())
}

fn object(file: &Name, header: &Header, sections: &[Section]) -> Object {
    Object::new()
        .string("file", &file.word())
        .truth("ok", true)
        .object("header", header::object(header))
        .array("sections", sections.iter().enumerate().map(row))
}

fn row((entry, section): (usize, &Section)) -> Object {
    let hex: String = section
        .name
        .iter()
        .map(|byte| format!("{byte:02x}"))
        .collect();
    Object::new()
        .number("entry", entry as u64)
        .number("kind", section.kind)
        .string_or_null("kind_name", kinds::name(section.kind))
        .number("codec", section.codec)
        .number("offset", section.start)
        .number("length", section.len)
        .string("checksum", &format!("{:016x}", section.sum))
        .string_or_null("name", std::str::from_utf8(section.name).ok())
        .string("name_hex", &hex)
}
