//! The summary of a file's edges: what the query planner asks for.

use crate::{ffi, Id};

/// Counts of a file's edges, and their smallest and largest. Dead edges count as others do:
/// among the edges, in degrees and in log numbers.
#[derive(Clone, Copy, Debug, PartialEq, Eq)]
pub struct Summary {
    pub key_count: u64,
    pub edge_count: u64,
    /// How many edges are dead.
    pub tombstones: u64,
    /// The most edges of a key, 0 where there are none.
    pub largest_degree: u64,
    /// `None` where there are no edges: then there is no smallest and largest.
    pub extremes: Option<Extremes>,
    /// Bucket i counts the keys of degree 2^i up to, but not including, 2^(i+1). As a file has at
    /// most 2^26 edges, buckets 27 to 63 are 0.
    pub buckets: [u64; 64],
}

/// The smallest and largest keys and log numbers of a file that has edges.
#[derive(Clone, Copy, Debug, PartialEq, Eq)]
pub struct Extremes {
    pub smallest_key: Id,
    pub largest_key: Id,
    pub smallest_log: u64,
    pub largest_log: u64,
}

impl Summary {
    pub(crate) fn of(told: &ffi::Summary) -> Summary {
        let extremes = Extremes {
            smallest_key: told.smallestkey,
            largest_key: told.largestkey,
            smallest_log: told.smallestlog,
            largest_log: told.largestlog,
        };
        Summary {
            key_count: told.keycount,
            edge_count: told.edgecount,
            tombstones: told.tombstones,
            largest_degree: told.largestdegree,
            extremes: (told.extremes != 0).then_some(extremes),
            buckets: told.buckets,
        }
    }
}
