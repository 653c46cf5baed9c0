//! The steps of the stub over slices.

use crate::{Refusal, TextPacket, TextReply, TextRequest, TextServed, TEXT};
use core::ops::Range;
use sanirvoq_sys::call::{self, Kind, Lent};
use sanirvoq_sys::ffi::{Record, Target};

/// The bytes of a trap in memory.
const TRAP: [u8; 2] = [0x02, 0x90];

/// A process of a setup.
#[derive(Debug, Clone, Copy, PartialEq, Eq, Hash)]
pub struct Process {
    /// Its pid, at least 1.
    pub pid: u32,
    /// The address of its Proc structure, for the host.
    pub address: u32,
}

/// What a setup is given.
///
/// The rules: `size` is a multiple of 4, from 4 to 65,536; `base` is a multiple of 4, at least 4,096,
/// and `base + size` at most 2^32; the bounds of `protected` are multiples of 4 and lie, rising, from
/// `base` to `base + size`; there are one to four processes, no two with the same pid.
#[derive(Debug, Clone, PartialEq, Eq, Hash)]
pub struct Setup<'a> {
    /// The address that the host uses for the first byte of the window.
    pub base: u32,
    /// The bytes of the window.
    pub size: u32,
    /// The addresses that the host may read, and that no request writes to and no breakpoint stands
    /// in, such as the limits of a laser's power. Where nothing is protected, `base..base`.
    pub protected: Range<u64>,
    /// The processes, in the order of their blocks in the register area.
    pub processes: &'a [Process],
}

impl<'a> Setup<'a> {
    /// A window and its processes, with nothing protected.
    #[must_use]
    pub fn new(base: u32, size: u32, processes: &'a [Process]) -> Self {
        Self { base, size, protected: base.into()..base.into(), processes }
    }

    /// The same with these addresses protected.
    #[must_use]
    pub fn protecting(self, protected: Range<u64>) -> Self {
        Self { protected, ..self }
    }
}

/// What the kernel is to do with a process that ran into a trap.
#[derive(Debug, Clone, Copy, PartialEq, Eq)]
#[non_exhaustive]
#[must_use = "it says whether the process may run on, and how"]
pub enum Verdict {
    /// The breakpoint of this id stops the process: it is not to run on.
    Stop(u8),
    /// The process runs on: these two bytes of the program are to be run elsewhere.
    Pass([u8; 2]),
    /// An answer that this edition has no name for.
    Other([u8; 3]),
}

/// What a served request leaves to the kernel, beside sending the reply.
#[derive(Debug, Clone, Copy, PartialEq, Eq)]
#[non_exhaustive]
#[must_use = "a process that goes on at a breakpoint needs its two bytes run elsewhere"]
pub enum Served {
    /// Nothing.
    Reply,
    /// A Tstart let its process go on at a breakpoint, which stands: these two bytes of the program
    /// are to be run elsewhere, with the registers of the process's block, then the process goes on
    /// behind them. Let go at the site itself it would only run into the trap again.
    ReplyAndPass([u8; 2]),
    /// An answer that this edition has no name for.
    Other([u8; 3]),
}

/// The stub's record: the window's place, the processes, the breakpoints and their conditions. It
/// holds no memory and no registers; the kernel lends both to every step. A step that is refused
/// changes nothing, but for a setup, which leaves the record empty.
///
/// Two stubs are equal where their records are, the places that no condition holds among them. The
/// default is the empty record, which every step but a setup refuses.
#[derive(Debug, Clone, Default, PartialEq, Eq)]
pub struct Stub {
    record: Record,
}

impl Stub {
    /// The stub of a setup over the buffers that every step will be lent. Refused with
    /// [`Refusal::Setup`] or [`Refusal::Size`].
    pub fn setup(setup: &Setup<'_>, memory: &[u8], registers: &[u8]) -> Result<Self, Refusal> {
        let mut stub = Self::default();
        stub.setup_in_place(setup, memory, registers)?;
        Ok(stub)
    }

    /// The same over this record, whatever it holds. A refused setup leaves it empty. No place is
    /// held afterwards; what stands in the places stays. Breakpoints that it held are forgotten; see
    /// [`Stub::put_back`].
    pub fn setup_in_place(
        &mut self,
        setup: &Setup<'_>,
        memory: &[u8],
        registers: &[u8],
    ) -> Result<(), Refusal> {
        let &Setup { base, size, ref protected, processes } = setup;
        // More than the record has room for is for the archive to refuse, by the count.
        let count = u32::try_from(processes.len()).unwrap_or(u32::MAX);
        let target = &mut self.record.target;
        *target = Target { base, size, count, ..Target::default() };
        for (listed, &Process { pid, address }) in target.processes.iter_mut().zip(processes) {
            (listed.pid, listed.address) = (pid, address);
        }
        answer(call::setup(target, memory, registers, protected.start, protected.end)).map(drop)
    }

    /// Serves a request of ten bytes with ten reply bytes, which may be Rerr, and says what else is
    /// to be done. Refused with [`Refusal::Size`] or [`Refusal::Unfit`].
    pub fn request(
        &mut self,
        memory: &mut [u8],
        registers: &mut [u8],
        request: &[u8],
        reply: &mut [u8],
    ) -> Result<Served, Refusal> {
        let lent = Lent { input: request, reply, ..self.lent(memory, registers) };
        answer(lent.call(Kind::Request)).map(served)
    }

    /// A process ran into a trap, with these 136 bytes of registers. Refused with
    /// [`Refusal::Size`], `Unfit`, `Unlisted`, `Stopped` or `NoSite`.
    pub fn trap(
        &mut self,
        memory: &mut [u8],
        registers: &mut [u8],
        pid: u32,
        block: &[u8],
    ) -> Result<Verdict, Refusal> {
        let lent = Lent { pid, input: block, ..self.lent(memory, registers) };
        answer(lent.call(Kind::Trap)).map(verdict)
    }

    /// The kernel is about to run a process, with these 136 bytes of registers: whether it is to
    /// stop instead. Refused with [`Refusal::Size`], `Unfit` or `Unlisted`.
    pub fn schedule(
        &mut self,
        memory: &mut [u8],
        registers: &mut [u8],
        pid: u32,
        block: &[u8],
    ) -> Result<bool, Refusal> {
        let lent = Lent { pid, input: block, ..self.lent(memory, registers) };
        answer(lent.call(Kind::Schedule)).map(|[stops, ..]| stops != 0)
    }

    /// The kernel gives a process another state byte. Refused with [`Refusal::Size`], `Unfit`,
    /// `Unlisted` or `Stopped`.
    pub fn state(
        &mut self,
        memory: &mut [u8],
        registers: &mut [u8],
        pid: u32,
        value: u8,
    ) -> Result<(), Refusal> {
        let lent = Lent { pid, value, ..self.lent(memory, registers) };
        answer(lent.call(Kind::State)).map(drop)
    }

    /// The debug session begins anew: every trap's plain bytes go back. The reply is Rerr reset.
    /// Refused with [`Refusal::Size`] or [`Refusal::Unfit`].
    pub fn restart(
        &mut self,
        memory: &mut [u8],
        registers: &mut [u8],
        reply: &mut [u8],
    ) -> Result<(), Refusal> {
        let lent = Lent { reply, ..self.lent(memory, registers) };
        answer(lent.call(Kind::Restart)).map(drop)
    }

    /// Serves the bytes of a text request with a text at the front of the reply buffer, of which the
    /// rest stays; the text may say an error. Refused, in this order, with [`Refusal::Size`] (of memory
    /// or registers), `Unfit`, `TextBuffer` or `NoPacket`.
    ///
    #[cfg_attr(archive, doc = "```")]
    #[cfg_attr(not(archive), doc = "```no_run")]
    /// # fn main() -> Result<(), sanirvoq::Refusal> {
    /// use sanirvoq::{Process, Setup, Stub, BLOCK, TEXT};
    ///
    /// let (mut memory, mut registers) = ([4, 5, 6, 7], [0; BLOCK]);
    /// let processes = [Process { pid: 5, address: 0 }];
    /// let setup = Setup::new(0x1004, 4, &processes);
    /// let mut stub = Stub::setup(&setup, &memory, &registers)?;
    /// let mut buffer = [0; TEXT];
    /// let served = stub.text(&mut memory, &mut registers, b"0x0 i 0x1004 0x0", &mut buffer)?;
    /// assert_eq!(served.text(), b"0x0 i 0x0 0x7060504");
    /// assert_eq!(served.reply(), Ok(0x0706_0504));
    /// # Ok(())
    /// # }
    /// ```
    pub fn text<'a>(
        &mut self,
        memory: &mut [u8],
        registers: &mut [u8],
        request: &[u8],
        reply: &'a mut [u8],
    ) -> Result<TextServed<'a>, Refusal> {
        let lent = Lent { input: request, reply: &mut *reply, ..self.lent(memory, registers) };
        let [error, filled, _] = answer(lent.call(Kind::Text))?;
        Ok(TextServed::new(&reply[..usize::from(filled)], error))
    }

    /// Serves a text request that is given as a value: writes its text, serves that and reads the reply.
    /// Refused with [`Refusal::Size`] or [`Refusal::Unfit`].
    ///
    #[cfg_attr(archive, doc = "```")]
    #[cfg_attr(not(archive), doc = "```no_run")]
    /// # fn main() -> Result<(), sanirvoq::Refusal> {
    /// use sanirvoq::{Errno, Process, Setup, Space, Stub, TextRequest, BLOCK};
    ///
    /// let (mut memory, mut registers) = ([4, 5, 6, 7], [0; BLOCK]);
    /// let processes = [Process { pid: 5, address: 0 }];
    /// let setup = Setup::new(0x1004, 4, &processes);
    /// let mut stub = Stub::setup(&setup, &memory, &registers)?;
    /// let write = TextRequest::WriteWord { space: Space::Data, address: 0x1004, data: 1 };
    /// assert_eq!(stub.text_request(&mut memory, &mut registers, write)?, Ok(0x0706_0504));
    /// assert_eq!(memory, [1, 0, 0, 0]);
    /// let pc = TextRequest::ReadRegister { number: 33 };
    /// assert_eq!(stub.text_request(&mut memory, &mut registers, pc)?, Err(Errno::Esrch));
    /// # Ok(())
    /// # }
    /// ```
    pub fn text_request(
        &mut self,
        memory: &mut [u8],
        registers: &mut [u8],
        request: TextRequest,
    ) -> Result<TextReply, Refusal> {
        let (mut text, mut reply) = ([0; TEXT], [0; TEXT]);
        // Its buffer is long enough and its letter in the range, so it is proved to be written.
        let written = call::text_encode(TextPacket::from(request).into(), &mut text);
        let request = &text[..written.filled as usize];
        self.text(memory, registers, request, &mut reply).map(|served| served.reply())
    }

    /// Puts the program's own bytes back where the window at `base` has the trap of a used entry, for a
    /// kernel that gives up a record after [`Refusal::Unfit`] and sets up anew: a setup begins with no
    /// breakpoint and takes the window as it is, and what lies under the traps would be lost with the
    /// record.
    ///
    /// It trusts nothing in the record: an entry whose site is not in the window, or where memory does
    /// not hold the trap, is left out. Gives how many used entries were left out; the kernel has to
    /// know by itself what belongs there.
    #[must_use = "entries that were left out need the kernel's own knowledge"]
    pub fn put_back(&self, memory: &mut [u8], base: u32) -> usize {
        let entries = self.record.target.table.entries;
        let used = entries.iter().filter(|entry| entry.used == 1);
        used.filter(|entry| {
            let at = entry.site.checked_sub(base).map(|at| at as usize);
            match at.and_then(|at| memory.get_mut(at..)?.first_chunk_mut()) {
                Some(bytes) if *bytes == TRAP => {
                    bytes.copy_from_slice(&entry.plain[..TRAP.len()]);
                    false
                }
                _ => true,
            }
        })
        .count()
    }

    /// A stub of any record: one that is not fit is refused by every step.
    #[must_use]
    pub fn from_raw(record: Record) -> Self {
        Self { record }
    }

    /// The record; its methods show the conditions that it has.
    #[must_use]
    pub fn raw(&self) -> &Record {
        &self.record
    }

    /// What every step is lent.
    fn lent<'a>(&'a mut self, memory: &'a mut [u8], registers: &'a mut [u8]) -> Lent<'a> {
        let record = &mut self.record;
        let (from, to, pid, value) = (0, 0, 0, 0);
        Lent { record, memory, registers, from, to, pid, value, input: &[], reply: &mut [] }
    }
}

/// The three bytes of an accepted step's answer.
fn answer(result: u32) -> Result<[u8; 3], Refusal> {
    let [number, answer @ ..] = result.to_le_bytes();
    Refusal::check(number).map(|()| answer)
}

/// The answer of an accepted request.
fn served(answer: [u8; 3]) -> Served {
    match answer {
        [0, _, _] => Served::Reply,
        [2, first, second] => Served::ReplyAndPass([first, second]),
        other => Served::Other(other),
    }
}

/// The answer of an accepted trap.
fn verdict(answer: [u8; 3]) -> Verdict {
    match answer {
        [1, id, _] => Verdict::Stop(id),
        [2, first, second] => Verdict::Pass([first, second]),
        other => Verdict::Other(other),
    }
}

#[cfg(test)]
mod tests {
    use super::*;
    use sanirvoq_sys::ffi::Entry;

    #[test]
    fn a_result_has_the_number_lowest() {
        assert_eq!(answer(0x0908_0200), Ok([2, 8, 9]));
        assert_eq!(answer(6), Err(Refusal::NoSite));
    }

    #[test]
    fn traps_that_stand_are_put_back_and_others_counted() {
        let mut record = Record::default();
        let entry = |site| Entry { used: 1, plain: [8, 9, 0, 0], site, ..Entry::default() };
        let entries = &mut record.target.table.entries;
        // In the window's first and last two bytes; overwritten; free.
        (entries[0], entries[1], entries[2]) = (entry(0x1000), entry(0x1006), entry(0x1004));
        entries[3] = Entry { used: 0, ..entry(0x1002) };
        // Below the window, across its end, behind it.
        (entries[4], entries[5], entries[6]) = (entry(0xffe), entry(0x1007), entry(u32::MAX));
        let mut memory = [0x02, 0x90, 0x02, 0x90, 0x02, 0x91, 0x02, 0x90];
        assert_eq!(Stub::from_raw(record).put_back(&mut memory, 0x1000), 4);
        assert_eq!(memory, [8, 9, 0x02, 0x90, 0x02, 0x91, 8, 9]);
    }

    #[test]
    fn a_request_answers_the_reply_alone_or_with_pass() {
        assert_eq!(served([0, 0, 0]), Served::Reply);
        assert_eq!(served([2, 8, 9]), Served::ReplyAndPass([8, 9]));
        assert_eq!(served([1, 8, 9]), Served::Other([1, 8, 9]));
    }

    #[test]
    fn a_trap_answers_stop_or_pass() {
        assert_eq!(verdict([1, 255, 0]), Verdict::Stop(255));
        assert_eq!(verdict([2, 8, 9]), Verdict::Pass([8, 9]));
        assert_eq!(verdict([0, 8, 9]), Verdict::Other([0, 8, 9]));
    }
}
