//! The degree summary: what the edges of a file that passes the full check
//! come to.

use crate::full_check::full_check;
use crate::groups::{edges, Group};
use crate::numbers::{hex, id_number, Id};
use crate::refusal::Refusal;
use std::fmt;
use std::ops::Range;

const BUCKETS: usize = 64;

#[derive(Clone, Debug, PartialEq, Eq)]
pub struct Summary {
    pub key_count: u64,
    pub edge_count: u64,
    pub tombstones: u64,
    /// 0 in a file without edges.
    pub largest_degree: u64,
    /// A file without edges has none.
    pub extremes: Option<Extremes>,
    pub buckets: [u64; BUCKETS],
}

/// The smallest and largest key and log number.
#[derive(Clone, Copy, Debug, PartialEq, Eq)]
pub struct Extremes {
    pub keys: [Id; 2],
    pub logs: [u64; 2],
}

pub fn summary(file: &[u8]) -> Result<Summary, Refusal> {
    full_check(file).map(|contents| summary_of(&contents.groups))
}

/// Dead edges count in degrees and log numbers too.
fn summary_of(groups: &[Group]) -> Summary {
    let degrees = || groups.iter().map(|group| group.edges.len() as u64);
    let keys_in = |bucket: Range<u128>| {
        let inside = degrees().filter(|&degree| bucket.contains(&degree.into()));
        inside.count() as u64
    };
    Summary {
        key_count: groups.len() as u64,
        edge_count: edges(groups).count() as u64,
        tombstones: edges(groups).filter(|edge| edge.dead).count() as u64,
        largest_degree: degrees().max().unwrap_or(0),
        extremes: extremes(groups),
        buckets: std::array::from_fn(|i| keys_in(bucket(i))),
    }
}

/// The degrees of bucket i: from 2^i up to, but not including, 2^(i+1).
fn bucket(i: usize) -> Range<u128> {
    let power = |exponent| 2_u128.pow(exponent);
    power(i as u32)..power(i as u32 + 1)
}

fn extremes(groups: &[Group]) -> Option<Extremes> {
    let keys = || groups.iter().map(|group| group.key);
    let logs = || edges(groups).map(|edge| edge.log);
    Some(Extremes {
        keys: [keys().min_by_key(id_number)?, keys().max_by_key(id_number)?],
        logs: [logs().min()?, logs().max()?],
    })
}

/// As the line of a corpus has it: of the buckets those that hold a key.
impl fmt::Display for Summary {
    fn fmt(&self, f: &mut fmt::Formatter) -> fmt::Result {
        let (keys, edges) = (self.key_count, self.edge_count);
        let (tombstones, degree) = (self.tombstones, self.largest_degree);
        write!(
            f,
            "keys {keys} edges {edges} tombstones {tombstones} degree {degree}"
        )?;
        match self.extremes {
            None => write!(f, " without edges")?,
            Some(extremes) => write!(f, " {extremes}")?,
        }
        write!(f, " buckets")?;
        let held = |bucket: &(usize, &u64)| *bucket.1 > 0;
        let mut held = self.buckets.iter().enumerate().filter(held);
        held.try_for_each(|(i, count)| write!(f, " {i}:{count}"))
    }
}

impl fmt::Display for Extremes {
    fn fmt(&self, f: &mut fmt::Formatter) -> fmt::Result {
        let [from, to] = self.keys.map(|key| hex(&key));
        let [first, last] = self.logs;
        write!(f, "from {from} to {to} logs {first} to {last}")
    }
}
