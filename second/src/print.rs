//! What the printing program says of a file.

use crate::full_check::{full_check, Contents};
use crate::groups::edges;
use crate::numbers::hex;

/// The most bytes of a file that is printed.
pub const LONGEST: usize = 65_536;

pub fn print(file: &[u8]) -> String {
    if file.len() > LONGEST {
        return "too long\n".to_string();
    }
    match full_check(file) {
        Err(refusal) => format!("{}\n", refusal.printed()),
        Ok(contents) => listing(&contents),
    }
}

/// A line with the counts, a line for each edge in file order, and `ok`.
fn listing(contents: &Contents) -> String {
    let groups = &contents.groups;
    let mut text = format!(
        "edge-sst {} minor {} keys {} edges {} dead {}\n",
        if contents.inverse {
            "inverse"
        } else {
            "forward"
        },
        contents.minor,
        groups.len(),
        edges(groups).count(),
        edges(groups).filter(|edge| edge.dead).count(),
    );
    for group in groups {
        for edge in &group.edges {
            text += &format!(
                "{} {} lsn {} {}\n",
                hex(&group.key),
                hex(&edge.partner),
                edge.log,
                if edge.dead { "dead" } else { "live" },
            );
        }
    }
    text + "ok\n"
}
