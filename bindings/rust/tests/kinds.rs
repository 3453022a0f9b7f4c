//! Sections of the reserved kinds, 0x0007 to 0x00FF, and of the kinds beside them.

use edge_sst::{check, read_out, sum, summary, EdgeSst, Refusal};

/// The entry of the board that is skipped, and its kind. It has a name; the two entries
/// before it have none.
const SKIPPED: usize = 2;
const KIND: u16 = 0x0777;

fn board() -> Vec<u8> {
    let path = concat!(env!("CARGO_MANIFEST_DIR"), "/../../samples/board.edges");
    std::fs::read(path).expect("a sample")
}

/// The board with this kind at that entry, and the sum of its footer set right.
fn board_with(kind: u16) -> Vec<u8> {
    let mut file = board();
    let end = file.len() - 20;
    let length = u32::from_le_bytes(file[end + 8..end + 12].try_into().unwrap());
    let footer = file.len() - length as usize;
    let entry = footer + 2 + 28 * SKIPPED;
    assert_eq!(file[entry..entry + 2], KIND.to_le_bytes());
    file[entry..entry + 2].copy_from_slice(&kind.to_le_bytes());
    let sum = sum(&file[footer..end]).to_le_bytes();
    file[end..end + 8].copy_from_slice(&sum);
    file
}

/// Lookups ask the opened file, so that none comes so far.
#[test]
fn reserved_kinds_are_refused_at_their_entry() {
    let refusal = Refusal {
        number: 36,
        place: SKIPPED as u64,
        beside: 0,
    };
    for kind in 0x0007..=0x00ff {
        let file = board_with(kind);
        assert_eq!(EdgeSst::open(&file).unwrap_err(), refusal, "kind {kind}");
        assert_eq!(check(&file), Err(refusal), "kind {kind}");
        assert_eq!(read_out(&file), Err(refusal), "kind {kind}");
        assert_eq!(summary(&file), Err(refusal), "kind {kind}");
    }
    let told = "refused 36 at 2: a section of a reserved kind";
    assert_eq!(refusal.to_string(), told);
}

/// The board has property streams by its flags, so that 0x0100 is one more.
#[test]
fn kinds_beside_the_reserved_ones_change_nothing() {
    let batch = read_out(&board()).unwrap();
    for kind in [0, 0x0100, 0x0101, 0x01ff, 0x0201, 0xffff, KIND] {
        let file = board_with(kind);
        let sections = EdgeSst::open(&file).unwrap().sections().unwrap();
        assert_eq!(sections[SKIPPED].kind, u64::from(kind));
        assert_eq!(check(&file), Ok(()), "kind {kind}");
        assert_eq!(read_out(&file).unwrap(), batch, "kind {kind}");
    }
}

/// The start index is a kind that is read, and has no name.
#[test]
fn a_start_index_has_no_name() {
    let refusal = Refusal {
        number: 9,
        place: 0,
        beside: 0,
    };
    let file = board_with(0x0200);
    assert_eq!(EdgeSst::open(&file).unwrap_err(), refusal);
}
