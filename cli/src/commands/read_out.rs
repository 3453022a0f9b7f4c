use super::Command;
use crate::arguments::{Arguments, OUTPUT};
use crate::failure::{Failure, Status};
use crate::input;
use crate::output;
use crate::place::{refused, Source};
use crate::watch::Watch;

pub const COMMAND: Command = Command {
    name: "read-out",
    usage: "FILE -o BATCH",
    summary: "Makes the batch of a file that passes the full check",
    help: "\
The batch is a heading of 50 bytes and 41 bytes for each edge: what 'write' takes.
'to-text' shows it.

  -o FILE, --output FILE  where the batch goes. It appears whole or not at all: it is
                          written beside it, synced and renamed
",
    choices: &[&OUTPUT],
    run,
};

fn run(arguments: &Arguments, watch: &Watch) -> Result<Status, Failure> {
    let file = arguments.file("file")?;
    let target = arguments.needed_output()?;
    let _working = watch.begin(&file);
    let bytes = input::edge_file(&file)?;
    let batch = edge_sst::read_out(&bytes)
        .map_err(|refusal| refused(&file, &Source::File(&bytes), refusal))?;
    output::write(&target, |out| out.write_all(&batch))?;
    Ok(Status::Fine)
}
