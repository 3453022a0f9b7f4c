//! Batches made by chance: sound ones, and the same with a byte changed, or
//! cut. The program's own writer is all that says what becomes of them.

use super::records::{edge, heading};
use super::Batches;
use crate::batch::record;
use crate::numbers::{id_of, Id};
use crate::random::Random;

pub fn add(batches: &mut Batches) {
    let mut random = Random::new(13);
    for count in 0..80 {
        let bytes = sound(&mut random);
        batches.add(format!("chance-{count}"), bytes.clone(), None);
        for turn in 0..2 {
            let mut changed = bytes.clone();
            let at = random.below(bytes.len() as u64) as usize;
            changed[at] = match random.below(3) {
                0 => changed[at].wrapping_add(1),
                1 => changed[at] ^ 1 << random.below(8),
                _ => random.byte(),
            };
            batches.add(format!("chance-{count}-changed-{turn}"), changed, None);
        }
        let cut = random.below(bytes.len() as u64) as usize;
        batches.add(format!("chance-{count}-cut"), bytes[..cut].to_vec(), None);
    }
}

/// Up to eight keys of up to six partners. Each group's upper halves go up by
/// steps of another size, so that both forms are chosen.
fn sound(random: &mut Random) -> Vec<u8> {
    let mut bytes = heading(random.below(2) as u8);
    bytes[2..].copy_from_slice(&random.bytes::<48>());
    let dead_of_8 = [0, 1, 5][random.below(3) as usize];
    let mut key_upper = 0;
    for _ in 0..random.below(9) {
        key_upper += 1 + random.below(1 << 50);
        let key = id_of(key_upper, random.number());
        for partner in partners(random) {
            let is_dead = random.below(8) < dead_of_8;
            let kind = if is_dead { record::DEAD } else { record::LIVE };
            bytes.extend(edge(kind, key, partner, random.number()));
        }
    }
    bytes
}

fn partners(random: &mut Random) -> Vec<Id> {
    let first = 1 << random.below(60);
    let step = 1 << random.below(60);
    let mut upper = random.below(first);
    (0..=random.below(6))
        .map(|_| {
            upper += 1 + random.below(step);
            id_of(upper, random.number())
        })
        .collect()
}
