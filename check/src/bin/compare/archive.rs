//! The C border: the calls of libhas_c.a. All `unsafe` code is here.
//! Each pointer comes from a slice and goes with that slice's own length.

use check::calls::Calls;

extern "C" {
    fn has_encode_page(
        message: *const u8,
        n: usize,
        status: u64,
        number: u64,
        page: u64,
        out: *mut u8,
        m: usize,
    ) -> u64;
    fn has_solve(contents: *const u8, n: usize, numbers: *const u8, k: usize, out: *mut u8, m: usize) -> u64;
    fn has_read(
        message: *const u8,
        n: usize,
        mask_id: u64,
        mask: *const u8,
        mask_n: usize,
        records: *mut u8,
        m: usize,
    ) -> u64;
    fn has_write(
        records: *const u8,
        n: usize,
        mask_id: u64,
        mask: *const u8,
        mask_n: usize,
        out: *mut u8,
        m: usize,
    ) -> u64;
    fn has_reference_time(second: u64, time_of_hour: u64) -> u64;
    fn has_replay(timeout: u64, entries: *const u8, n: usize, log: *mut u8, m: usize) -> u64;
    fn has_start(head: *mut u8, hn: usize, store: *mut u8, sn: usize, timeout: u64) -> u64;
    fn has_feed(
        head: *mut u8,
        hn: usize,
        store: *mut u8,
        sn: usize,
        second: u64,
        page: *const u8,
        n: usize,
        out: *mut u8,
        m: usize,
    ) -> u64;
}

/// The proved library.
pub struct Archive;

impl Calls for Archive {
    fn encode_page(&self, message: &[u8], status: u64, number: u64, page: u64, out: &mut [u8]) -> u64 {
        unsafe { has_encode_page(message.as_ptr(), message.len(), status, number, page, out.as_mut_ptr(), out.len()) }
    }

    fn solve(&self, contents: &[u8], numbers: &[u8], out: &mut [u8]) -> u64 {
        unsafe {
            has_solve(contents.as_ptr(), contents.len(), numbers.as_ptr(), numbers.len(), out.as_mut_ptr(), out.len())
        }
    }

    fn read(&self, message: &[u8], mask_id: u64, mask: &[u8], records: &mut [u8]) -> u64 {
        unsafe {
            has_read(
                message.as_ptr(),
                message.len(),
                mask_id,
                mask.as_ptr(),
                mask.len(),
                records.as_mut_ptr(),
                records.len(),
            )
        }
    }

    fn write(&self, records: &[u8], mask_id: u64, mask: &[u8], out: &mut [u8]) -> u64 {
        unsafe {
            has_write(records.as_ptr(), records.len(), mask_id, mask.as_ptr(), mask.len(), out.as_mut_ptr(), out.len())
        }
    }

    fn reference_time(&self, second: u64, time_of_hour: u64) -> u64 {
        unsafe { has_reference_time(second, time_of_hour) }
    }

    fn replay(&self, timeout: u64, entries: &[u8], log: &mut [u8]) -> u64 {
        unsafe { has_replay(timeout, entries.as_ptr(), entries.len(), log.as_mut_ptr(), log.len()) }
    }

    fn start(&self, head: &mut [u8], store: &mut [u8], timeout: u64) -> u64 {
        unsafe { has_start(head.as_mut_ptr(), head.len(), store.as_mut_ptr(), store.len(), timeout) }
    }

    fn feed(&self, head: &mut [u8], store: &mut [u8], second: u64, page: &[u8], out: &mut [u8]) -> u64 {
        unsafe {
            has_feed(
                head.as_mut_ptr(),
                head.len(),
                store.as_mut_ptr(),
                store.len(),
                second,
                page.as_ptr(),
                page.len(),
                out.as_mut_ptr(),
                out.len(),
            )
        }
    }

    fn name(&self) -> &'static str {
        "libhas_c.a"
    }
}
