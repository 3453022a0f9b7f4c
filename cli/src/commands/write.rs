use super::Command;
use crate::arguments::{Arguments, OUTPUT};
use crate::failure::{Failure, Status};
use crate::input;
use crate::output;
use crate::place::{refused, Source};
use crate::watch::Watch;

pub const COMMAND: Command = Command {
    name: "write",
    usage: "BATCH -o FILE",
    summary: "Makes the file of a batch",
    help: "\
A batch is a heading of 50 bytes (kind 3, direction 0 or 1, three ids) and 41 bytes
for each edge (kind 1 live or 2 dead, key, partner, log number), which strictly rise
by key, then partner: what 'read-out' and 'from-text' give.

  -o FILE, --output FILE  where the file goes. It appears whole or not at all: it is
                          written beside it, synced and renamed
",
    choices: &[&OUTPUT],
    run,
};

fn run(arguments: &Arguments, watch: &Watch) -> Result<Status, Failure> {
    let batch = arguments.file("batch")?;
    let target = arguments.needed_output()?;
    let _working = watch.begin(&batch);
    let bytes = input::whole(&batch)?;
    let file =
        edge_sst::write(&bytes).map_err(|refusal| refused(&batch, &Source::Batch, refusal))?;
    output::write(&target, |out| out.write_all(&file))?;
    Ok(Status::Fine)
}
