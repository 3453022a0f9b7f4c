//! The section list: opening, and then the rows of the section table in a table
//! that the caller lends.

use crate::open::{open, SectionRow};
use crate::refusal::Refusal;

/// The number of a table that is too short; its place is the rows needed.
const SHORT: u8 = 20;

/// Fills the table from its start and says how many rows it took. A refusal
/// leaves the table as it was.
pub fn list(file: &[u8], table: &mut [SectionRow]) -> Result<u64, Refusal> {
    let rows = open(file)?.rows;
    let needed = rows.len() as u64;
    let part = table
        .get_mut(..rows.len())
        .ok_or(Refusal::at(SHORT, needed))?;
    part.clone_from_slice(&rows);
    Ok(needed)
}
