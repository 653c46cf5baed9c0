//! Packets of the text dialect, aimed at the record at hand. The program has no text steps, so no
//! burst of its steps makes them; `rust/compare` puts them between the steps of its sessions.

use crate::aim::EDGES;
use crate::burst::Burst;
use crate::step::ten;
use reference::TextPacket;

/// The letters that are served.
pub const SERVED: [u8; 6] = *b"idIDrR";
/// The first, the last and what is next to them; status and pc; offsets in the place of numbers.
const REGISTERS: [u32; 14] = [0, 0, 1, 31, 32, 33, 33, 34, 34, 35, 128, 132, 135, u32::MAX];

impl Burst<'_> {
    /// A request, mostly of a letter that is served and of PID 0.
    pub fn packet(&mut self) -> TextPacket {
        let letter = match self.rng.weighted(&[88, 6, 6]) {
            0 => self.rng.pick(&SERVED),
            1 => self.rng.pick(b"cs"),
            _ => 0x21 + self.rng.below(0x5e) as u8,
        };
        self.packet_of(letter)
    }

    /// A request of this letter.
    pub fn packet_of(&mut self, letter: u8) -> TextPacket {
        let (listed, any) = (self.pid(0), self.rng.word());
        let pid = if self.rng.chance(8) { self.rng.pick(&[listed, 1, any, u32::MAX]) } else { 0 };
        let of_register = matches!(letter, b'r' | b'R') || self.rng.chance(2);
        let third = if of_register { self.register() } else { self.word_address() };
        TextPacket { pid, letter, third, fourth: self.word() }
    }

    /// The number of a register, some of them too large.
    fn register(&mut self) -> u32 {
        match self.rng.weighted(&[60, 34, 6]) {
            0 => self.rng.below(34),
            1 => self.rng.pick(&REGISTERS),
            _ => self.rng.word(),
        }
    }

    /// The address of a word: under traps, at the window's ends, elsewhere in the window, beside it, at
    /// the protected stretch; or of none, unaligned or not.
    fn word_address(&mut self) -> u32 {
        let (base, end) = (self.stub.base, self.end());
        match self.rng.weighted(&[34, 12, 12, 20, 12, 10, 12]) {
            0 => self.standing_site() & !3,
            1 => self.word_of_two_traps().unwrap_or(base),
            2 => self.rng.pick(&[base, end.wrapping_sub(4)]),
            3 => self.inside() & !3,
            4 => {
                let beside = [base.wrapping_sub(4), end, end.wrapping_add(4), 0, 4, 132, 136];
                self.rng.pick(&beside)
            }
            5 => self.address(),
            _ => self.edge_word(),
        }
    }

    /// A word with a trap in each of its halves, if there is one.
    fn word_of_two_traps(&self) -> Option<u32> {
        let sites = self.stub.table.iter().flatten().map(|entry| entry.site);
        sites.map(|site| site & !3).find(|&word| {
            self.stub.at_site(word).is_some() && self.stub.at_site(word | 2).is_some()
        })
    }

    /// Data: any, few digits, bytes like a trap's.
    fn word(&mut self) -> u32 {
        let any = self.rng.word();
        let few = any >> (4 * self.rng.below(8));
        self.rng.pick(&[
            any,
            any,
            few,
            few,
            0,
            u32::MAX,
            0x9002_9002,
            0x0290_0290,
            any << 16 | 0x9002,
        ])
    }

    /// The request that writes the saved pc of the current process: to a site, beside one, elsewhere.
    pub fn pc_packet(&mut self) -> TextPacket {
        let (site, any) = (self.standing_site(), self.address());
        let beside = site.wrapping_add(self.rng.below(5)).wrapping_sub(2);
        let fourth = self.rng.pick(&[site, site, beside, any]);
        TextPacket { pid: 0, letter: b'R', third: 33, fourth }
    }

    /// A Tstart.
    pub fn start(&mut self, pid: u32) {
        self.ask(ten(14, pid, &[]));
    }

    /// Makes a process current, mostly a Stopped one, for the registers of text requests. Writes a
    /// register by Tmput now and then, so that both ways meet. Gives the pid.
    pub fn select(&mut self) -> u32 {
        let stopped = self.pid_where(true);
        let pid = stopped.unwrap_or_else(|| self.pid(0));
        self.ask(ten(6, pid, &[]));
        if self.rng.chance(20) {
            let address = self.rng.pick(&EDGES) & !3;
            let [a, b, c, d] = self.rng.word().to_be_bytes();
            self.ask(ten(4, address, &[4, a, b, c, d]));
        }
        pid
    }
}
