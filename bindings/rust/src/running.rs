//! The sum of bytes that come in chunks.

use crate::ffi;
use crate::refusal::{refuse_if, Refusal};

/// XXH3-64 of bytes that come in chunks, at most 2^30 bytes in all: the number in the
/// end is that of the whole, wherever the cuts fall.
///
/// It allocates nothing and has 328 bytes, so that a download can keep one for each
/// section that is open. A clone goes on by itself; two are equal that were fed the
/// same bytes.
///
/// ```
/// use edge_sst::{sum, RunningSum};
/// let mut running = RunningSum::new();
/// for chunk in ["a board's ", "", "parts"] {
///     running.update(chunk.as_bytes())?;
/// }
/// assert_eq!(running.sum(), sum(b"a board's parts"));
/// # Ok::<(), edge_sst::Refusal>(())
/// ```
#[derive(Clone, Debug, PartialEq, Eq)]
pub struct RunningSum {
    state: ffi::Running,
}

impl RunningSum {
    /// The sum of no bytes.
    pub fn new() -> RunningSum {
        // SAFETY: nothing is lent.
        let state = unsafe { ffi::edge_sst_running_new() };
        RunningSum { state }
    }

    /// Takes the next chunk, which may be empty. One that would take the bytes past
    /// 2^30 is refusal 27; then nothing changes, and a smaller one may follow.
    pub fn update(&mut self, chunk: &[u8]) -> Result<(), Refusal> {
        let ffi::Running {
            total,
            lanes,
            buffer,
        } = &mut self.state;
        // SAFETY: the parts are those of one state, with their lengths, and are lent by
        // `&mut`; the pointer and length of the chunk are of one slice. None is null.
        let told = unsafe {
            ffi::edge_sst_running_feed(
                total,
                lanes.as_mut_ptr(),
                buffer.as_mut_ptr(),
                chunk.as_ptr(),
                chunk.len(),
            )
        };
        refuse_if(told.number, told.place, told.beside)
    }

    /// How many bytes were taken so far; those of a refused chunk do not count.
    pub fn total(&self) -> u64 {
        self.state.total
    }

    /// The sum of all bytes so far. Asking changes nothing, and chunks may follow.
    pub fn sum(&self) -> u64 {
        let state = &self.state;
        // SAFETY: the parts are those of one state, with their lengths, and none is null.
        unsafe {
            ffi::edge_sst_running_asked(state.total, state.lanes.as_ptr(), state.buffer.as_ptr())
        }
    }
}

impl Default for RunningSum {
    fn default() -> RunningSum {
        RunningSum::new()
    }
}
