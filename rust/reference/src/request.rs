//! Requests: decided by their first byte, refused with Rerr in the order of 01.

use crate::condition::{depth, Element};
use crate::event::exact;
use crate::message::{Message, Reason};
use crate::record::{Breakpoint, Draft, Refusal, Stub};
use crate::{word, BLOCK, ELEMENTS, LAST_ID, MESSAGE, PC, PLACES, READY, STOPPED, TRAP};

type Answer = Result<Message, Reason>;

/// The buffer that an address names a part of.
enum Place {
    /// From this offset in the current process's block.
    Registers(usize),
    Window,
}

impl Stub {
    /// Serves a request. Past numbers 2 and 3 it always writes ten reply bytes, which may be Rerr.
    /// Where it let a process go on at a breakpoint, the answer has the two plain bytes besides.
    pub fn request(
        &mut self,
        memory: &mut [u8],
        registers: &mut [u8],
        request: &[u8],
        reply: &mut [u8],
    ) -> Result<Option<[u8; 2]>, Refusal> {
        let request: &[u8; MESSAGE] = exact(request)?;
        exact::<MESSAGE>(reply)?;
        self.enter(memory, registers)?;
        let served = self.serve(memory, registers, request);
        let (message, plain) = served.unwrap_or_else(|reason| (Message::Rerr(reason), None));
        reply.copy_from_slice(&message.bytes());
        Ok(plain)
    }

    /// The reply, and the plain bytes beside it. unk, and the unsup of a type, look at no other byte.
    fn serve(
        &mut self,
        memory: &mut [u8],
        registers: &mut [u8],
        request: &[u8; MESSAGE],
    ) -> Result<(Message, Option<[u8; 2]>), Reason> {
        let data = &request[1..];
        let reply = match request[0] {
            2 => self.tmget(memory, registers, data)?,
            4 => self.tmput(memory, registers, data)?,
            6 => self.tproc(data)?,
            8 => Message::Rstatus(self.processes[self.asked(data)?].state),
            10 => self.asked(data).map(|_| Message::Rrnote)?,
            12 => self.tstop(data)?,
            14 => return Ok((Message::Rstart, self.tstart(registers, data)?)),
            16 => self.tcondbreak(memory, data)?,
            18 | 22 => return Err(Reason::Unsup),
            _ => return Err(Reason::Unk),
        };
        Ok((reply, None))
    }

    /// Tmget addr[4] n[1]: n plain bytes, then zeros.
    fn tmget(&self, memory: &[u8], registers: &[u8], data: &[u8]) -> Answer {
        let (address, n) = (word(data), usize::from(data[4]));
        let mut bytes = [0; 9];
        let out = bytes.get_mut(..n).ok_or(Reason::Count)?;
        unused(&data[5..])?;
        if n > 0 {
            match self.place(address, n)? {
                Place::Registers(at) => {
                    let start = self.stopped_block()? + at;
                    out.copy_from_slice(&registers[start..start + n]);
                }
                Place::Window => self.read_plain(memory, address, out).ok_or(Reason::Inval)?,
            }
        }
        Ok(Message::Rmget(bytes))
    }

    /// Tmput addr[4] n[1] data[4]: data beyond n is unused; register zero and protected bytes are
    /// never written.
    fn tmput(&mut self, memory: &mut [u8], registers: &mut [u8], data: &[u8]) -> Answer {
        let (address, n) = (word(data), usize::from(data[4]));
        if n > 4 {
            return Err(Reason::Count);
        }
        let (bytes, rest) = data[5..].split_at(n);
        unused(rest)?;
        if n > 0 {
            match self.place(address, n)? {
                Place::Registers(0..=3) => return Err(Reason::Inval),
                Place::Registers(at) => {
                    let start = self.stopped_block()? + at;
                    registers[start..start + n].copy_from_slice(bytes);
                }
                Place::Window if self.protects(address, n) => return Err(Reason::Unsup),
                Place::Window => self.write_plain(memory, address, bytes).ok_or(Reason::Inval)?,
            }
        }
        Ok(Message::Rmput)
    }

    /// All n bytes lie in 0 to 135, or all in the window, else inval.
    fn place(&self, address: u32, n: usize) -> Result<Place, Reason> {
        let at = address as usize;
        if at < BLOCK && at + n <= BLOCK {
            Ok(Place::Registers(at))
        } else if self.offset(address, n).is_some() {
            Ok(Place::Window)
        } else {
            Err(Reason::Inval)
        }
    }

    /// Where the current process's block begins: none current gives pid, not Stopped notstop.
    fn stopped_block(&self) -> Result<usize, Reason> {
        let index = self.current.and_then(|pid| self.listed(pid)).ok_or(Reason::Pid)?;
        if self.processes[index].state == STOPPED {
            Ok(BLOCK * index)
        } else {
            Err(Reason::Notstop)
        }
    }

    /// The process of a request pid[4]: five unused bytes, then the pid.
    fn asked(&self, data: &[u8]) -> Result<usize, Reason> {
        unused(&data[4..])?;
        self.listed(word(data)).ok_or(Reason::Pid)
    }

    fn tproc(&mut self, data: &[u8]) -> Answer {
        let process = self.processes[self.asked(data)?];
        self.current = Some(process.pid);
        Ok(Message::Rproc(process.address))
    }

    /// Tstop marks a process that is not Stopped.
    fn tstop(&mut self, data: &[u8]) -> Answer {
        let index = self.asked(data)?;
        let process = &mut self.processes[index];
        process.wanted |= process.state != STOPPED;
        Ok(Message::Rstop)
    }

    /// Tstart clears the mark; a Stopped process becomes Ready. Gives the plain bytes of the
    /// breakpoint at its saved pc, which stays.
    fn tstart(&mut self, registers: &[u8], data: &[u8]) -> Result<Option<[u8; 2]>, Reason> {
        let index = self.asked(data)?;
        let process = &mut self.processes[index];
        process.wanted = false;
        if process.state != STOPPED {
            return Ok(None);
        }
        process.state = READY;
        let pc = word(&registers[BLOCK * index + PC..]);
        Ok(self.at_site(pc).map(|entry| entry.plain))
    }

    /// Tcondbreak val[4] op[4]: Rerr drops the condition in hand, unless op is d and three zeros.
    fn tcondbreak(&mut self, memory: &mut [u8], data: &[u8]) -> Answer {
        let done = self.operation(memory, data);
        if done.is_err() && data[4..8] != *b"d\0\0\0" {
            self.draft = None;
        }
        done.map(|()| Message::Rcondbreak)
    }

    /// The letter and the unused bytes are tested first.
    fn operation(&mut self, memory: &mut [u8], data: &[u8]) -> Result<(), Reason> {
        let (val, letter) = (word(data), data[4]);
        unused(&data[5..])?;
        match letter {
            b'n' => self.begin(val),
            b'b' => self.set(memory, val),
            b'd' => {
                let index = self.of_id(val).ok_or(Reason::Inval)?;
                self.remove(memory, index);
                Ok(())
            }
            b'k' | b'p' => self.join(Element::of(letter, val)),
            _ if val == 0 => self.join(Element::of(letter, val)),
            _ => Err(Reason::Inval),
        }
    }

    /// n: id over 255 or in use, inval; then table full, count.
    fn begin(&mut self, val: u32) -> Result<(), Reason> {
        if val > LAST_ID || self.of_id(val).is_some() {
            return Err(Reason::Inval);
        }
        self.free_entry().ok_or(Reason::Count)?;
        self.draft = Some(Draft { id: val as u8, elements: Vec::new() });
        Ok(())
    }

    /// An element: another letter or nothing in hand, inval; the 65th of its condition or no place
    /// left, count; too few values, inval.
    fn join(&mut self, element: Option<Element>) -> Result<(), Reason> {
        let element = element.ok_or(Reason::Inval)?;
        let all_held = self.held() >= PLACES;
        let draft = self.draft.as_mut().ok_or(Reason::Inval)?;
        if draft.elements.len() >= ELEMENTS || all_held {
            return Err(Reason::Count);
        }
        depth(&draft.elements).and_then(|depth| element.after(depth)).ok_or(Reason::Inval)?;
        draft.elements.push(element);
        Ok(())
    }

    /// b: nothing in hand, odd or outside site, or site taken: inval; a protected byte at the site:
    /// unsup; depth not 1: inval.
    fn set(&mut self, memory: &mut [u8], site: u32) -> Result<(), Reason> {
        // Taken out of hand at once: what is refused here drops it too.
        let Draft { id, elements } = self.draft.take().ok_or(Reason::Inval)?;
        let inside = self.offset(site, TRAP.len()).is_some();
        if !site.is_multiple_of(2) || !inside || self.at_site(site).is_some() {
            return Err(Reason::Inval);
        }
        if self.protects(site, TRAP.len()) {
            return Err(Reason::Unsup);
        }
        if depth(&elements) != Some(1) {
            return Err(Reason::Inval);
        }
        let index = self.free_entry().ok_or(Reason::Inval)?;
        let entry = Breakpoint { id, site, plain: [0; 2], elements };
        self.table[index] = Some(self.plant(memory, entry).ok_or(Reason::Inval)?);
        Ok(())
    }
}

/// A non-zero unused byte is inval.
fn unused(bytes: &[u8]) -> Result<(), Reason> {
    if bytes.iter().all(|&byte| byte == 0) {
        Ok(())
    } else {
        Err(Reason::Inval)
    }
}
