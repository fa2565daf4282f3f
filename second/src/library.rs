//! The C library's entries behind safe functions. All unsafe code of the comparison is here.
//! A case is lent as a copy, so that a library that writes into it is found out.
#![allow(unsafe_code)]

#[cfg(feature = "judge")]
use bench::judge::Question;

/// One state as the library gives it; `initial` is left as a byte, to see any wrong value.
#[repr(C)]
#[derive(Clone, Copy, PartialEq, Eq, Debug, Default)]
pub struct StateRecord {
    pub label: u16,
    pub initial: u8,
}

#[repr(C)]
#[derive(Clone, Copy, PartialEq, Eq, Debug)]
pub struct StateAnswer {
    pub number: u64,
    pub place: u64,
    pub state: StateRecord,
}

#[cfg(any(feature = "judge", feature = "search", feature = "states"))]
#[repr(C)]
#[derive(Clone, Copy, PartialEq, Eq, Debug)]
pub struct Answer {
    pub number: u64,
    pub place: u64,
    pub stem: u64,
    pub r#loop: u64,
}

/// An answer, and whether all that was lent for reading only is as it was.
#[derive(Clone, Copy, PartialEq, Eq, Debug)]
pub struct Call<A> {
    pub answer: A,
    pub kept: bool,
}

extern "C" {
    fn mullodai_state(bytes: *const u8, length: usize, state: u64) -> StateAnswer;
    #[cfg(feature = "judge")]
    fn mullodai_judge(
        bytes: *const u8,
        length: usize,
        track: *const u16,
        track_length: usize,
        k: u64,
        m: u64,
        scratch: *mut u32,
        scratch_length: usize,
    ) -> Answer;
    #[cfg(feature = "search")]
    fn mullodai_search(
        bytes: *const u8,
        length: usize,
        workspace: *mut u16,
        workspace_length: usize,
        track: *mut u16,
        track_length: usize,
    ) -> Answer;
    #[cfg(feature = "states")]
    fn mullodai_states(
        bytes: *const u8,
        length: usize,
        list: *mut StateRecord,
        list_length: usize,
    ) -> Answer;
}

pub fn state(bytes: &[u8], state: u64) -> Call<StateAnswer> {
    let mut lent = bytes.to_vec();
    // SAFETY: the pointer and length are those of `lent`, alive and unshared during the call.
    let answer = unsafe { mullodai_state(lent.as_mut_ptr(), lent.len(), state) };
    let kept = lent == bytes;
    Call { answer, kept }
}

/// The scratch is the one given here, whatever length the question names.
#[cfg(feature = "judge")]
pub fn judge(asked: &Question, scratch: &mut [u32]) -> Call<Answer> {
    let (mut lent, mut track) = (asked.bytes.clone(), asked.track.clone());
    // SAFETY: the pointers and lengths are those of three slices, alive and unshared during the
    // call.
    let answer = unsafe {
        mullodai_judge(
            lent.as_mut_ptr(),
            lent.len(),
            track.as_mut_ptr(),
            track.len(),
            asked.stem,
            asked.r#loop,
            scratch.as_mut_ptr(),
            scratch.len(),
        )
    };
    let kept = lent == asked.bytes && track == asked.track;
    Call { answer, kept }
}

#[cfg(feature = "search")]
pub fn search(bytes: &[u8], workspace: &mut [u16], track: &mut [u16]) -> Call<Answer> {
    let mut lent = bytes.to_vec();
    // SAFETY: the pointers and lengths are those of three slices, alive and unshared during the
    // call.
    let answer = unsafe {
        mullodai_search(
            lent.as_mut_ptr(),
            lent.len(),
            workspace.as_mut_ptr(),
            workspace.len(),
            track.as_mut_ptr(),
            track.len(),
        )
    };
    let kept = lent == bytes;
    Call { answer, kept }
}

#[cfg(feature = "states")]
pub fn states(bytes: &[u8], list: &mut [StateRecord]) -> Call<Answer> {
    let mut lent = bytes.to_vec();
    // SAFETY: the pointers and lengths are those of two slices, alive and unshared during the call.
    let answer =
        unsafe { mullodai_states(lent.as_mut_ptr(), lent.len(), list.as_mut_ptr(), list.len()) };
    let kept = lent == bytes;
    Call { answer, kept }
}
