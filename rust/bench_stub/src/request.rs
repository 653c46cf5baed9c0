//! Requests.

use crate::condition::Element;
use crate::fit::Scan;
use crate::record::{Draft, Entry, Refusal, Stub};
use crate::{word, BLOCK, ELEMENTS, MESSAGE, PC, PLACES, READY, STOPPED, TRAP};

type Reply = [u8; MESSAGE];

const COUNT: Reply = *b"\x01count\0\0\0\0";
const UNK: Reply = *b"\x01unk\0\0\0\0\0\0";
const INVAL: Reply = *b"\x01inval\0\0\0\0";
const PID: Reply = *b"\x01pid\0\0\0\0\0\0";
const UNSUP: Reply = *b"\x01unsup\0\0\0\0";
const NOTSTOP: Reply = *b"\x01notstop\0\0";

const STATES: [&[u8; 9]; 10] = [
    b"Dead\0\0\0\0\0",
    b"Moribund\0",
    b"Ready\0\0\0\0",
    b"Scheding\0",
    b"Running\0\0",
    b"Queueing\0",
    b"Wakeme\0\0\0",
    b"Broken\0\0\0",
    b"Stopped\0\0",
    b"Rendezvou",
];

/// Done with a reply, or refused with one.
type Done = Result<Reply, Reply>;

/// A reply of its type and zeros.
const fn plain(kind: u8) -> Reply {
    [kind, 0, 0, 0, 0, 0, 0, 0, 0, 0]
}

/// The lower-case hex digit of a number below 16.
#[inline(always)]
fn digit(number: u8) -> u8 {
    number + if number < 10 { b'0' } else { b'a' - 10 }
}

impl Stub {
    /// Serves a request; the answer has the two plain bytes where a process goes on at a breakpoint.
    pub fn request(
        &mut self,
        memory: &mut [u8],
        registers: &mut [u8],
        request: &[u8],
        reply: &mut [u8],
    ) -> Result<Option<[u8; 2]>, Refusal> {
        let request: &[u8; MESSAGE] = request.try_into().map_err(|_| Refusal::Size)?;
        let reply: &mut [u8; MESSAGE] = reply.try_into().map_err(|_| Refusal::Size)?;
        let scan = self.enter(memory, registers)?;
        let mut beside = None;
        let done = match request[0] {
            2 => self.tmget(memory, registers, request),
            4 => self.tmput(memory, registers, request),
            6 => self.tproc(request),
            8 => self.asked(request).map(|index| rstatus(self.processes[index].state)),
            10 => self.asked(request).map(|_| plain(11)),
            12 => self.tstop(request),
            14 => self.tstart(registers, request, &mut beside),
            16 => self.tcondbreak(memory, request, scan),
            18 | 22 => Err(UNSUP),
            _ => Err(UNK),
        };
        *reply = done.unwrap_or_else(|rerr| rerr);
        Ok(beside)
    }

    #[inline(always)]
    fn tmget(&self, memory: &[u8], registers: &[u8], request: &Reply) -> Done {
        let (address, n) = (word(request, 1), usize::from(request[5]));
        if n > 9 {
            return Err(COUNT);
        }
        unused(&request[6..])?;
        let mut reply = plain(3);
        if n == 0 {
            return Ok(reply);
        }
        let Some(out) = reply.get_mut(1..=n) else { return Err(COUNT) };
        if address < BLOCK as u32 {
            let start = self.block_part(address as usize, n)?;
            out.copy_from_slice(&registers[start..start + n]);
            return Ok(reply);
        }
        let start = self.offset(address, n).ok_or(INVAL)?;
        let stretch = &memory[start..start + n];
        // Nine bytes are the most and the most common: copied without a call.
        match (<&mut [u8; 9]>::try_from(&mut *out), <&[u8; 9]>::try_from(stretch)) {
            (Ok(out), Ok(stretch)) => *out = *stretch,
            _ => out.copy_from_slice(stretch),
        }
        self.lay(address, out);
        Ok(reply)
    }

    #[inline(always)]
    fn tmput(&mut self, memory: &mut [u8], registers: &mut [u8], request: &Reply) -> Done {
        let (address, n) = (word(request, 1), usize::from(request[5]));
        if n > 4 {
            return Err(COUNT);
        }
        let (data, rest) = request[6..].split_at(n);
        unused(rest)?;
        if n > 0 && address < BLOCK as u32 {
            if address < 4 {
                return Err(INVAL);
            }
            let start = self.block_part(address as usize, n)?;
            registers[start..start + n].copy_from_slice(data);
        } else if n > 0 {
            let at = self.offset(address, n).ok_or(INVAL)?;
            if self.protects(at, n) {
                return Err(UNSUP);
            }
            self.write_plain(memory, at, data).ok_or(INVAL)?;
        }
        Ok(plain(5))
    }

    /// Where a part of the current process's block begins in the register area.
    #[inline(always)]
    fn block_part(&self, at: usize, n: usize) -> Result<usize, Reply> {
        if at + n > BLOCK {
            return Err(INVAL);
        }
        let index = self.current.and_then(|pid| self.listed(pid)).ok_or(PID)?;
        if self.processes[index].state == STOPPED {
            Ok(BLOCK * index + at)
        } else {
            Err(NOTSTOP)
        }
    }

    #[inline(always)]
    fn asked(&self, request: &Reply) -> Result<usize, Reply> {
        unused(&request[5..])?;
        self.listed(word(request, 1)).ok_or(PID)
    }

    #[inline(always)]
    fn tproc(&mut self, request: &Reply) -> Done {
        let process = self.processes[self.asked(request)?];
        self.current = Some(process.pid);
        let mut reply = plain(7);
        for (byte, shift) in reply[1..9].iter_mut().zip((0..8).rev()) {
            *byte = digit((process.address >> (4 * shift)) as u8 & 15);
        }
        Ok(reply)
    }

    #[inline(always)]
    fn tstop(&mut self, request: &Reply) -> Done {
        let index = self.asked(request)?;
        let process = &mut self.processes[index];
        process.wanted |= process.state != STOPPED;
        Ok(plain(13))
    }

    #[inline(always)]
    fn tstart(&mut self, registers: &[u8], request: &Reply, beside: &mut Option<[u8; 2]>) -> Done {
        let index = self.asked(request)?;
        let process = &mut self.processes[index];
        process.wanted = false;
        if process.state == STOPPED {
            process.state = READY;
            let at = self.at_site(word(registers, BLOCK * index + PC));
            *beside = at.map(|at| self.entries[at].plain);
        }
        Ok(plain(15))
    }

    #[inline(always)]
    fn tcondbreak(&mut self, memory: &mut [u8], request: &Reply, scan: Scan) -> Done {
        let done = self.operation(memory, request, scan);
        if done.is_err() && request[5..9] != *b"d\0\0\0" {
            self.draft = Draft::default();
        }
        done
    }

    #[inline(always)]
    fn operation(&mut self, memory: &mut [u8], request: &Reply, scan: Scan) -> Done {
        let val = word(request, 1);
        unused(&request[6..])?;
        match request[5] {
            b'n' => self.begin(val)?,
            b'b' => self.set(memory, val, scan)?,
            b'd' => self.remove(memory, val, scan)?,
            letter => self.join(Element::of(letter, val).ok_or(INVAL)?, scan)?,
        }
        Ok(plain(17))
    }

    #[inline(always)]
    fn begin(&mut self, val: u32) -> Result<(), Reply> {
        let id = u8::try_from(val).map_err(|_| INVAL)?;
        if self.of_id(val).is_some() {
            return Err(INVAL);
        }
        if self.entries.iter().all(|entry| entry.used) {
            return Err(COUNT);
        }
        self.draft = Draft { active: true, id, count: 0 };
        Ok(())
    }

    #[inline(always)]
    fn join(&mut self, element: Element, scan: Scan) -> Result<(), Reply> {
        let Draft { active, count, .. } = self.draft;
        if !active {
            return Err(INVAL);
        }
        if usize::from(count) >= ELEMENTS || scan.held >= PLACES {
            return Err(COUNT);
        }
        if scan.depth + element.change() < 1 {
            return Err(INVAL);
        }
        self.places[scan.held] = element;
        self.draft.count += 1;
        Ok(())
    }

    /// The elements in hand are turned to where those of the new entry stand.
    #[inline(always)]
    fn set(&mut self, memory: &mut [u8], site: u32, scan: Scan) -> Result<(), Reply> {
        let Draft { active, id, count } = self.draft;
        let at = self.offset(site, 2).filter(|_| active && site & 1 == 0).ok_or(INVAL)?;
        if self.at_site(site).is_some() {
            return Err(INVAL);
        }
        if self.site_is_protected(at) {
            return Err(UNSUP);
        }
        if scan.depth != 1 {
            return Err(INVAL);
        }
        let index = self.entries.iter().position(|entry| !entry.used).ok_or(INVAL)?;
        let first = self.first_place(index);
        if first < scan.planted && count > 0 {
            self.places[first..scan.held].rotate_right(usize::from(count));
        }
        let bytes = memory.get_mut(at..at + 2).ok_or(INVAL)?;
        let plain = [bytes[0], bytes[1]];
        bytes.copy_from_slice(&TRAP);
        self.entries[index] = Entry { used: true, id, count, plain, site };
        self.draft = Draft::default();
        Ok(())
    }

    /// What stands after the elements of the breakpoint moves up.
    #[inline(always)]
    fn remove(&mut self, memory: &mut [u8], id: u32, scan: Scan) -> Result<(), Reply> {
        let index = self.of_id(id).ok_or(INVAL)?;
        let (first, count) = (self.first_place(index), usize::from(self.entries[index].count));
        self.places.copy_within(first + count..scan.held, first);
        self.put_back(memory, index);
        self.entries[index] = Entry::default();
        Ok(())
    }
}

/// A state's name, or its number in hex.
#[inline(always)]
fn rstatus(state: u8) -> Reply {
    let mut reply = plain(9);
    match STATES.get(usize::from(state)) {
        Some(name) => reply[1..].copy_from_slice(*name),
        None if state < 16 => reply[1] = digit(state),
        None => (reply[1], reply[2]) = (digit(state >> 4), digit(state & 15)),
    }
    reply
}

/// A non-zero unused byte is inval.
#[inline(always)]
fn unused(bytes: &[u8]) -> Result<(), Reply> {
    if bytes.iter().fold(0, |all, byte| all | byte) == 0 {
        Ok(())
    } else {
        Err(INVAL)
    }
}
