use super::Command;
use crate::arguments::{Arguments, OUTPUT};
use crate::batch_text;
use crate::failure::{Failure, Status};
use crate::input::{self, Name};
use crate::output;
use crate::place::{refused, Source};
use crate::watch::Watch;
use edge_sst::Batch;

pub const COMMAND: Command = Command {
    name: "to-text",
    usage: "BATCH [-o TEXT]",
    summary: "A batch as text",
    help: "\
A heading with the direction ('forward' or 'inverse') and the ids of the edge type,
the source label and the destination label, then a line for each edge, live or dead:

  batch forward TYPE SOURCE DESTINATION
  KEY PARTNER lsn NUMBER live

Ids have 32 hexadecimal digits. 'from-text' makes the same batch of it again.

  -o FILE, --output FILE  where the text goes, otherwise to standard output. A file
                          appears whole or not at all
",
    choices: &[&OUTPUT],
    run,
};

fn run(arguments: &Arguments, watch: &Watch) -> Result<Status, Failure> {
    let name = arguments.file("batch")?;
    let target = arguments.output().unwrap_or(Name::output("-".as_ref()));
    let working = watch.begin(&name);
    let bytes = input::whole(&name)?;
    let batch = Batch::of(&bytes).map_err(|refusal| refused(&name, &Source::Batch, refusal))?;
    drop(working);
    output::write(&target, |out| batch_text::print(out, &batch))?;
    Ok(Status::Fine)
}
