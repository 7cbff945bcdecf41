//! The proved code, through its C interface (`include/moq.h`): a slice is a
//! pointer and a count. `speed` times some of these functions as they stand;
//! after them are calls that take slices.

#![allow(dead_code)] // Each program calls a part of it.

/// An integer read from the front of bytes: answers 01's number, and with a 0
/// the number and the bytes used in `info`.
pub type Read =
    unsafe extern "C" fn(s: *const u8, s_len: usize, info: *mut u64, info_len: usize) -> u64;

/// A number written at the front of `out`: answers 01's number, and with a 0
/// the bytes used in `info`.
pub type Write = unsafe extern "C" fn(
    n: u64,
    out: *mut u8,
    out_len: usize,
    info: *mut u64,
    info_len: usize,
) -> u64;

/// A message or header read from the front of `s` and written again in its
/// shortest form at the front of `out`, or the text of a trace: answers 01's
/// number, and with a 0 tells in `info` what `include/moq.h` says.
pub type Rewrite = unsafe extern "C" fn(
    s: *const u8,
    s_len: usize,
    out: *mut u8,
    out_len: usize,
    info: *mut u64,
    info_len: usize,
) -> u64;

extern "C" {
    pub fn moq_integer_read(s: *const u8, s_len: usize, info: *mut u64, info_len: usize) -> u64;
    pub fn moq_integer_write(
        n: u64,
        out: *mut u8,
        out_len: usize,
        info: *mut u64,
        info_len: usize,
    ) -> u64;
    fn moq_ledger_start(
        part: u64,
        rows: u64,
        maximum: u64,
        numbers: *mut u64,
        numbers_len: usize,
    ) -> u64;
    fn moq_ledger_take(
        s: *const u8,
        s_len: usize,
        numbers: *mut u64,
        numbers_len: usize,
        info: *mut u64,
        info_len: usize,
    ) -> u64;
    fn moq_ledger_malformed(numbers: *mut u64, numbers_len: usize) -> u64;
    fn moq_ledger_arrival(
        alias: u64,
        group: u64,
        object: u64,
        numbers: *mut u64,
        numbers_len: usize,
    ) -> u64;
    fn moq_ledger_arrivals(
        run: *const u64,
        run_len: usize,
        numbers: *mut u64,
        numbers_len: usize,
        answers: *mut u8,
        answers_len: usize,
    ) -> u64;
}

macro_rules! rewrites {
    ($($name:ident)*) => {
        extern "C" {
            $(pub fn $name(
                s: *const u8,
                s_len: usize,
                out: *mut u8,
                out_len: usize,
                info: *mut u64,
                info_len: usize,
            ) -> u64;)*
        }
    };
}

rewrites! {
    moq_control_rewrite
    moq_datagram_rewrite
    moq_stream_rewrite
    moq_subgroup_object_rewrite
    moq_fetch_object_rewrite
    moq_report
    moq_answers
}

fn rewrite(f: Rewrite, s: &[u8], out: &mut [u8], info: &mut [u64]) -> u64 {
    // Every pointer and count is that of one slice, and the slices are apart.
    unsafe {
        f(
            s.as_ptr(),
            s.len(),
            out.as_mut_ptr(),
            out.len(),
            info.as_mut_ptr(),
            info.len(),
        )
    }
}

/// Into `info` the number and the bytes used.
pub fn integer_read(s: &[u8], info: &mut [u64]) -> u64 {
    unsafe { moq_integer_read(s.as_ptr(), s.len(), info.as_mut_ptr(), info.len()) }
}

/// Into `info` the bytes written.
pub fn integer_write(n: u64, out: &mut [u8], info: &mut [u64]) -> u64 {
    unsafe {
        moq_integer_write(
            n,
            out.as_mut_ptr(),
            out.len(),
            info.as_mut_ptr(),
            info.len(),
        )
    }
}

/// Into `info` the bytes used, the bytes written and the type.
pub fn control(s: &[u8], out: &mut [u8], info: &mut [u64]) -> u64 {
    rewrite(moq_control_rewrite, s, out, info)
}

pub fn datagram(s: &[u8], out: &mut [u8], info: &mut [u64]) -> u64 {
    rewrite(moq_datagram_rewrite, s, out, info)
}

pub fn stream(s: &[u8], out: &mut [u8], info: &mut [u64]) -> u64 {
    rewrite(moq_stream_rewrite, s, out, info)
}

pub fn subgroup_object(s: &[u8], out: &mut [u8], info: &mut [u64]) -> u64 {
    rewrite(moq_subgroup_object_rewrite, s, out, info)
}

pub fn fetch_object(s: &[u8], out: &mut [u8], info: &mut [u64]) -> u64 {
    rewrite(moq_fetch_object_rewrite, s, out, info)
}

/// Into `info` the length of the text.
pub fn report(trace: &[u8], out: &mut [u8], info: &mut [u64]) -> u64 {
    rewrite(moq_report, trace, out, info)
}

pub fn answers(trace: &[u8], out: &mut [u8], info: &mut [u64]) -> u64 {
    rewrite(moq_answers, trace, out, info)
}

pub fn ledger_start(part: u64, rows: u64, maximum: u64, numbers: &mut [u64]) -> u64 {
    unsafe { moq_ledger_start(part, rows, maximum, numbers.as_mut_ptr(), numbers.len()) }
}

/// Into `info` the bytes used and the rule.
pub fn ledger_take(s: &[u8], numbers: &mut [u64], info: &mut [u64]) -> u64 {
    unsafe {
        moq_ledger_take(
            s.as_ptr(),
            s.len(),
            numbers.as_mut_ptr(),
            numbers.len(),
            info.as_mut_ptr(),
            info.len(),
        )
    }
}

pub fn ledger_malformed(numbers: &mut [u64]) -> u64 {
    unsafe { moq_ledger_malformed(numbers.as_mut_ptr(), numbers.len()) }
}

pub fn ledger_arrival(alias: u64, group: u64, object: u64, numbers: &mut [u64]) -> u64 {
    unsafe { moq_ledger_arrival(alias, group, object, numbers.as_mut_ptr(), numbers.len()) }
}

/// Into `answers` the number of each arrival.
pub fn ledger_arrivals(run: &[u64], numbers: &mut [u64], answers: &mut [u8]) -> u64 {
    unsafe {
        moq_ledger_arrivals(
            run.as_ptr(),
            run.len(),
            numbers.as_mut_ptr(),
            numbers.len(),
            answers.as_mut_ptr(),
            answers.len(),
        )
    }
}
