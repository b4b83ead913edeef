//! Makes each call on both sides and compares everything that can be seen.

use crate::buffer::{hex, Buffer};
use crate::table::{self, Table};
use check::calls::{refusal_of, Calls};

/// A text that says what differs, and for which input.
pub type Compared<T> = Result<T, String>;

pub struct Both<'a> {
    pub left: &'a dyn Calls,
    pub right: &'a dyn Calls,
    pub table: Table,
    pub(crate) out: [Buffer; 2],
    pub(crate) turn: u64,
}

impl<'a> Both<'a> {
    pub fn new(left: &'a dyn Calls, right: &'a dyn Calls) -> Both<'a> {
        Both { left, right, table: Table::new(), out: [Buffer::default(), Buffer::default()], turn: 0 }
    }

    /// One call with one buffer of m octets: the results and the whole buffers must be equal.
    fn call(
        &mut self,
        call: usize,
        m: usize,
        run: impl Fn(&dyn Calls, &mut [u8]) -> u64,
        input: impl Fn() -> String,
    ) -> Compared<u64> {
        self.turn += 1;
        let [left_out, right_out] = &mut self.out;
        left_out.fill(m, self.turn);
        right_out.fill(m, self.turn);
        let left = run(self.left, left_out.lent());
        let right = run(self.right, right_out.lent());
        let buffers = left_out.differs(right_out);
        if left != right || buffers.is_some() {
            return Err(self.difference(call, left, right, buffers, &format!("{}\nbuffer of {m}", input())));
        }
        self.table.count(call, refusal_of(left));
        Ok(left)
    }

    /// The report of a difference.
    pub(crate) fn difference(
        &self,
        call: usize,
        left: u64,
        right: u64,
        buffers: Option<String>,
        input: &str,
    ) -> String {
        let side = |name: &str, result: u64| {
            format!("{name}: refusal {}, value {:#X}", refusal_of(result), result & 0xFFFF_FFFF)
        };
        format!(
            "DIFFERENCE in {}\n{input}\n{}\n{}\nbuffers: {}",
            table::CALLS[call],
            side(self.left.name(), left),
            side(self.right.name(), right),
            buffers.unwrap_or("equal".into()),
        )
    }

    /// The buffer after the last call.
    pub fn written(&self) -> &[u8] {
        self.out[0].seen()
    }

    pub fn encode_page(&mut self, message: &[u8], status: u64, number: u64, page: u64, m: usize) -> Compared<u64> {
        self.call(
            table::ENCODE_PAGE,
            m,
            |side, out| side.encode_page(message, status, number, page, out),
            || format!("message {}\nstatus {status}, number {number}, page {page}", hex(message)),
        )
    }

    pub fn solve(&mut self, contents: &[u8], numbers: &[u8], m: usize) -> Compared<u64> {
        self.call(
            table::SOLVE,
            m,
            |side, out| side.solve(contents, numbers, out),
            || format!("contents {}\nnumbers {}", hex(contents), hex(numbers)),
        )
    }

    pub fn read(&mut self, message: &[u8], mask_id: u64, mask: &[u8], m: usize) -> Compared<u64> {
        self.call(
            table::READ,
            m,
            |side, out| side.read(message, mask_id, mask, out),
            || format!("message {}\nmask ID {mask_id}, mask {}", hex(message), hex(mask)),
        )
    }

    pub fn write(&mut self, records: &[u8], mask_id: u64, mask: &[u8], m: usize) -> Compared<u64> {
        self.call(
            table::WRITE,
            m,
            |side, out| side.write(records, mask_id, mask, out),
            || format!("records {}\nmask ID {mask_id}, mask {}", hex(records), hex(mask)),
        )
    }

    pub fn reference_time(&mut self, second: u64, time_of_hour: u64) -> Compared<u64> {
        self.call(
            table::REFERENCE_TIME,
            0,
            |side, _| side.reference_time(second, time_of_hour),
            || format!("second {second}, time of hour {time_of_hour}"),
        )
    }

    pub fn replay(&mut self, timeout: u64, entries: &[u8], m: usize) -> Compared<u64> {
        self.call(
            table::REPLAY,
            m,
            |side, log| side.replay(timeout, entries, log),
            || format!("time-out {timeout}\nentries {}", hex(entries)),
        )
    }
}
