//! The book of demand 3. It is fed the setup, the accepted steps with their answers, and outside
//! changes, and takes nothing from a record; it shares no rule with the stub. A step whose number
//! is not 0 changes nothing, so it is not fed; Rerr and ERRFLG -1 are seen here.

use crate::{read_text, word, Verdict, BLOCK, MESSAGE, PC, TRAP};
use std::ops::Range;

/// What is claimed of an answer or of memory; the text says what is broken.
pub type Claim = Result<(), &'static str>;

/// An id and the elements that were sent after it, each a letter and its val.
#[derive(Debug, Clone, Default, PartialEq, Eq)]
pub struct Condition {
    pub id: u32,
    pub elements: Vec<(u8, u32)>,
}

/// A breakpoint.
#[derive(Debug, Clone, PartialEq, Eq)]
pub struct Planted {
    pub site: u32,
    pub condition: Condition,
}

#[derive(Debug, Clone, PartialEq, Eq)]
pub struct Book {
    base: u32,
    /// The addresses that no step may change.
    protected: Range<u64>,
    /// In setup order, which is that of the register blocks.
    pids: Vec<u32>,
    plain: Vec<u8>,
    draft: Option<Condition>,
    /// By rising site.
    planted: Vec<Planted>,
    stopped: Vec<u32>,
}

/// What a condition came to.
#[derive(Debug, Clone, Copy, PartialEq, Eq)]
pub struct Evaluation<'a> {
    pub holds: bool,
    /// A `*` read outside the window, which decides at once.
    pub outside: bool,
    /// The elements that were looked at.
    pub elements: &'a [(u8, u32)],
}

impl Book {
    /// An accepted setup: plain memory is the memory lent.
    pub fn new(base: u32, protected: Range<u64>, pids: &[u32], memory: &[u8]) -> Self {
        let (pids, plain) = (pids.to_vec(), memory.to_vec());
        let (planted, stopped) = (Vec::new(), Vec::new());
        Self { base, protected, pids, plain, draft: None, planted, stopped }
    }

    /// It may be one that the stub has dropped; nothing joins it before a new `n`.
    pub fn draft(&self) -> Option<&Condition> {
        self.draft.as_ref()
    }

    pub fn planted(&self) -> &[Planted] {
        &self.planted
    }

    pub fn stopped(&self) -> &[u32] {
        &self.stopped
    }

    /// Whether a byte of the window is under a trap.
    pub fn under_trap(&self, at: usize) -> bool {
        self.planted.iter().any(|one| (0..TRAP.len()).contains(&at.wrapping_sub(self.at(one))))
    }

    /// An outside change of one byte.
    pub fn outside(&mut self, at: usize, byte: u8) {
        self.plain[at] = byte;
    }

    /// Memory is plain memory with the book's traps laid over it.
    pub fn lies_under(&self, memory: &[u8]) -> Claim {
        let mut from = 0;
        let mut same = memory.len() == self.plain.len();
        for one in &self.planted {
            let at = self.at(one);
            same = same && memory[from..at] == self.plain[from..at] && memory[at..at + 2] == TRAP;
            from = at + 2;
        }
        if same && memory[from..] == self.plain[from..] {
            Ok(())
        } else {
            Err("memory is not plain memory with the traps laid over it")
        }
    }

    /// No step, of whatever number and answer, changes a protected byte of real memory. Outside
    /// changes are no steps.
    pub fn keeps_protected(&self, before: &[u8], after: &[u8]) -> Claim {
        let Range { start, end } = self.protected;
        let [from, to] = [start, end].map(|address| (address - u64::from(self.base)) as usize);
        if before.get(from..to) == after.get(from..to) {
            Ok(())
        } else {
            Err("a step changed a protected byte of memory")
        }
    }

    /// A request of number 0, over the register area lent to it, with its reply and the plain bytes
    /// that the answer has beside it.
    pub fn request(
        &mut self,
        request: &[u8; MESSAGE],
        registers: &[u8],
        reply: &[u8; MESSAGE],
        plain: Option<[u8; 2]>,
    ) -> Claim {
        let (number, one) = (word(&request[1..]), request[5]);
        match (request[0], reply[0]) {
            (14, 15) => self.start(number, registers, plain),
            _ if plain.is_some() => Err("plain bytes beside a reply that is not Rstart"),
            (_, 1) => Ok(()),
            (2, 3) => self.read(number, usize::from(one), &reply[1..]),
            (4, 5) => self.write(number, usize::from(one), &request[6..]),
            (6, 7) | (8, 9) | (10, 11) | (12, 13) => Ok(()),
            (16, 17) => self.operation(one, number),
            _ => Err("the reply is of another type"),
        }
    }

    /// A text step of number 0, with the text of its reply. A word that it answers is the plain one
    /// before the step, and `I` and `D` are accepted writes. ERRFLG -1 changes nothing here.
    pub fn text(&mut self, request: &[u8], reply: &[u8]) -> Claim {
        let request = read_text(request).map_err(|_| "a text was served that is no packet")?;
        let reply = read_text(reply).map_err(|_| "a reply is no packet")?;
        if (reply.pid, reply.letter) != (request.pid, request.letter) {
            return Err("a reply has not the PID and the letter of its request");
        }
        match (reply.third, request.letter) {
            (0, b'i' | b'd') => self.word(request.third, reply.fourth).map(drop),
            (0, b'I' | b'D') => {
                let at = self.word(request.third, reply.fourth)?;
                self.plain[at..at + 4].copy_from_slice(&request.fourth.to_le_bytes());
                Ok(())
            }
            (0, b'r' | b'R') | (u32::MAX, _) => Ok(()),
            (0, _) => Err("a letter was served that is not listed"),
            _ => Err("an error flag is neither 0 nor -1"),
        }
    }

    /// A trap event of number 0 answers by the book's breakpoints and plain memory.
    pub fn trap(&mut self, pid: u32, block: &[u8; BLOCK], verdict: Verdict) -> Claim {
        let one = self.planted_at(word(&block[PC..])).ok_or("a trap where no breakpoint is")?;
        let expected = if self.evaluate(&one.condition.elements, pid)?.holds {
            Verdict::Stop(u8::try_from(one.condition.id).map_err(|_| "an id over 255")?)
        } else {
            Verdict::Pass(self.plain_under(one))
        };
        if let Verdict::Stop(_) = verdict {
            self.stop(pid);
        }
        if verdict == expected {
            Ok(())
        } else {
            Err("a trap is not answered by its condition over plain memory")
        }
    }

    /// A schedule event of number 0.
    pub fn schedule(&mut self, pid: u32, yes: bool) {
        if yes {
            self.stop(pid);
        }
    }

    /// A restart of number 0.
    pub fn restart(&mut self) {
        self.planted.clear();
        self.stopped.clear();
    }

    /// What the condition at this pc comes to for this pid.
    pub fn evaluated(&self, pid: u32, pc: u32) -> Option<Evaluation<'_>> {
        self.planted_at(pc).and_then(|one| self.evaluate(&one.condition.elements, pid).ok())
    }

    /// Where a breakpoint's trap is in memory.
    fn at(&self, one: &Planted) -> usize {
        (one.site - self.base) as usize
    }

    fn planted_at(&self, site: u32) -> Option<&Planted> {
        self.planted.iter().find(|one| one.site == site)
    }

    /// The plain bytes under a breakpoint's trap.
    fn plain_under(&self, one: &Planted) -> [u8; 2] {
        let at = self.at(one);
        [self.plain[at], self.plain[at + 1]]
    }

    fn stop(&mut self, pid: u32) {
        if !self.stopped.contains(&pid) {
            self.stopped.push(pid);
        }
    }

    /// Where in the window these bytes are, if all of them are there.
    fn place(&self, address: u32, n: usize) -> Option<usize> {
        let start = address.checked_sub(self.base)? as usize;
        (start + n <= self.plain.len()).then_some(start)
    }

    /// Where a served stretch is in the window; none where it is of no bytes or of registers.
    fn served(&self, address: u32, n: usize) -> Result<Option<usize>, &'static str> {
        if n == 0 || address as usize + n <= BLOCK {
            return Ok(None);
        }
        self.place(address, n).map(Some).ok_or("a stretch was served that is not in the window")
    }

    fn read(&self, address: u32, n: usize, answer: &[u8]) -> Claim {
        let (answer, rest) = answer.split_at_checked(n).ok_or("a count over nine was served")?;
        match self.served(address, n)? {
            Some(at) if self.plain[at..at + n] != *answer => Err("a read is not of plain memory"),
            _ if rest.iter().any(|&byte| byte != 0) => Err("a read answers more than n bytes"),
            _ => Ok(()),
        }
    }

    /// Where a word that was answered is in the window. It is plain memory's, low-order first.
    fn word(&self, address: u32, answered: u32) -> Result<usize, &'static str> {
        let at = self.place(address, 4).ok_or("a word was served that is not in the window")?;
        if self.plain[at..at + 4] == answered.to_le_bytes() {
            Ok(at)
        } else {
            Err("a word is not that of plain memory")
        }
    }

    fn write(&mut self, address: u32, n: usize, data: &[u8]) -> Claim {
        let data = data.get(..n).ok_or("a count over four was served")?;
        if let Some(at) = self.served(address, n)? {
            self.plain[at..at + n].copy_from_slice(data);
        }
        Ok(())
    }

    /// Where the process was Stopped with the pc of its register block at a breakpoint, the answer
    /// has the plain bytes there, and else none.
    fn start(&mut self, pid: u32, registers: &[u8], plain: Option<[u8; 2]>) -> Claim {
        let index = self.pids.iter().position(|&one| one == pid);
        let index = index.ok_or("an unlisted process was started")?;
        let mut expected = None;
        if let Some(place) = self.stopped.iter().position(|&one| one == pid) {
            self.stopped.swap_remove(place);
            let pc = word(&registers[BLOCK * index + PC..]);
            expected = self.planted_at(pc).map(|one| self.plain_under(one));
        }
        if plain == expected {
            Ok(())
        } else {
            Err("a start is not answered by the plain memory at its saved pc")
        }
    }

    fn operation(&mut self, letter: u8, val: u32) -> Claim {
        match letter {
            b'n' => self.draft = Some(Condition { id: val, elements: Vec::new() }),
            b'b' => return self.set(val),
            b'd' => {
                let place = self.planted.iter().position(|one| one.condition.id == val);
                self.planted.remove(place.ok_or("an unknown breakpoint was removed")?);
            }
            _ => {
                let draft = self.draft.as_mut().ok_or("an element joined no condition")?;
                draft.elements.push((letter, val));
            }
        }
        Ok(())
    }

    /// An accepted b sets the draft as a breakpoint.
    fn set(&mut self, site: u32) -> Claim {
        let condition = self.draft.take().ok_or("a breakpoint was set with no condition")?;
        self.place(site, TRAP.len()).ok_or("a breakpoint was set outside the window")?;
        let after = self.planted.partition_point(|one| one.site < site);
        let near = |one: &Planted| one.site.abs_diff(site) < TRAP.len() as u32;
        if self.planted.iter().any(near) {
            return Err("a breakpoint was set over another");
        }
        self.planted.insert(after, Planted { site, condition });
        Ok(())
    }

    /// A condition over plain memory. It is true where a `*` reads outside the window.
    fn evaluate<'a>(
        &self,
        elements: &'a [(u8, u32)],
        pid: u32,
    ) -> Result<Evaluation<'a>, &'static str> {
        let mut stack = Vec::with_capacity(1 + elements.len());
        stack.push(1);
        for (i, &(letter, val)) in elements.iter().enumerate() {
            let top = match letter {
                b'k' => u32::from(val == pid),
                b'p' => val,
                b'*' => {
                    let address = stack.pop().ok_or("a condition lacks a value")?;
                    let Some(at) = self.place(address, 4) else {
                        let elements = &elements[..=i];
                        return Ok(Evaluation { holds: true, outside: true, elements });
                    };
                    let [a, b, c, d] = [0, 1, 2, 3].map(|k| u32::from(self.plain[at + k]));
                    a | b << 8 | c << 16 | d << 24
                }
                _ => {
                    let (right, left) = (stack.pop(), stack.pop());
                    let (right, left) = right.zip(left).ok_or("a condition lacks a value")?;
                    joined(letter, left, right).ok_or("a condition has a letter that is none")?
                }
            };
            stack.push(top);
        }
        match stack[..] {
            [value] => Ok(Evaluation { holds: value != 0, outside: false, elements }),
            _ => Err("a condition leaves more than one value"),
        }
    }
}

/// The value of a letter that takes two.
fn joined(letter: u8, left: u32, right: u32) -> Option<u32> {
    Some(match letter {
        b'&' => left & right,
        b'=' => u32::from(left == right),
        b'!' => u32::from(left != right),
        b'a' => u32::from(left > 0 && right > 0),
        b'o' => u32::from(left > 0 || right > 0),
        _ => return None,
    })
}
