//! Makes records with a plain window, wanted images and offers from a seed. What is made says what must
//! come out: that is a third opinion, beside the two sides.

use crate::make::setup::stretch;
use crate::raw::written;
use crate::record::Record;
use reference::patch::{Judged, Place, Write, LONGEST_OFFER};
use reference::{Session, Stub, BLOCK};
use steps::step::ten;
use steps::Rng;

/// What is wrong with the record or what is lent.
#[derive(Debug, Clone, Copy, PartialEq, Eq)]
pub enum Fault {
    None,
    Memory,
    Registers,
    Room,
    Record,
}

impl Fault {
    pub const ALL: [(Self, &'static str); 5] = [
        (Self::None, "nothing wrong"),
        (Self::Memory, "memory of another size"),
        (Self::Registers, "registers of another size"),
        (Self::Room, "room of another size"),
        (Self::Record, "a spoiled record"),
    ];

    /// The number that it gives.
    pub fn number(self) -> u8 {
        match self {
            Self::None => 0,
            Self::Record => 3,
            _ => 2,
        }
    }
}

/// How the wanted image differs from the plain window.
#[derive(Debug, Clone, Copy, PartialEq, Eq)]
pub enum Images {
    Equal,
    One,
    Last,
    Few,
    Alternating,
    All,
    Protected,
    Shorter,
    Longer,
}

impl Images {
    pub const ALL: [(Self, &'static str); 9] = [
        (Self::Equal, "equal"),
        (Self::One, "one byte"),
        (Self::Last, "the last byte"),
        (Self::Few, "some bytes"),
        (Self::Alternating, "every other byte"),
        (Self::All, "all bytes"),
        (Self::Protected, "a protected byte too"),
        (Self::Shorter, "another size: shorter"),
        (Self::Longer, "another size: longer"),
    ];

    pub fn is_sized(self) -> bool {
        !matches!(self, Self::Shorter | Self::Longer)
    }
}

/// What is offered.
#[derive(Debug, Clone, Copy, PartialEq, Eq)]
pub enum Offer {
    Plan,
    Longer,
    InOrder,
    OutOfOrder,
    Dropped,
    Count0,
    CountOver,
    Below,
    Behind,
    OverEnd,
    OverTop,
    Protected,
    Most,
    TooMany,
    Any,
}

impl Offer {
    pub const ALL: [(Self, &'static str); 15] = [
        (Self::Plan, "the plan, noise beyond the counts"),
        (Self::Longer, "longer than needed"),
        (Self::InOrder, "right in its order only"),
        (Self::OutOfOrder, "wrong in its order"),
        (Self::Dropped, "a write left off"),
        (Self::Count0, "a count of 0"),
        (Self::CountOver, "a count over 4"),
        (Self::Below, "a write from below the window"),
        (Self::Behind, "a write behind the window"),
        (Self::OverEnd, "a write over the window's end"),
        (Self::OverTop, "a write past 2^32"),
        (Self::Protected, "a protected byte written"),
        (Self::Most, "16,384 writes"),
        (Self::TooMany, "16,385 writes"),
        (Self::Any, "any writes"),
    ];
}

/// How long the list is beside what the plan needs.
#[derive(Debug, Clone, Copy, PartialEq, Eq)]
pub enum Room {
    Exact,
    More,
    OneShort,
    None,
}

impl Room {
    pub const ALL: [(Self, &'static str); 4] = [
        (Self::Exact, "exact"),
        (Self::More, "some places more"),
        (Self::OneShort, "a place short"),
        (Self::None, "none"),
    ];
}

/// What a call is lent, with what was made.
#[derive(Debug, Clone)]
pub struct Made {
    pub record: Record,
    pub memory: Vec<u8>,
    pub registers: Vec<u8>,
    pub wanted: Vec<u8>,
    pub offer: Vec<Write>,
    /// The length of the room.
    pub room: usize,
    /// The places of the list, each with this write.
    pub list: usize,
    pub fill: Write,
    pub fault: Fault,
    pub images: Images,
    pub offered: Offer,
    pub places: Room,
    /// What must be said of the offer, where the images have one size.
    pub judged: Option<Judged>,
    /// The writes of the plan, or the address of the lowest protected byte that differs.
    pub planned: Result<usize, u32>,
}

impl Made {
    pub fn new(rng: &mut Rng) -> Self {
        let Session { stub, memory, registers } = session(rng);
        let mut plain = vec![0; stub.size as usize];
        stub.read_plain(&memory, stub.base, &mut plain).expect("the whole window");
        let from = u64::from(stub.base) + u64::from(stub.protected.offset);
        let protected = from..from + u64::from(stub.protected.length);
        let place = Place { base: stub.base, protected };
        let maker = Maker { rng, place, plain };
        maker.made(&stub, memory, registers)
    }

    /// The number that checking must have.
    pub fn check_number(&self) -> u8 {
        match self.fault.number() {
            0 if !self.images.is_sized() || self.offer.len() > LONGEST_OFFER => 16,
            number => number,
        }
    }

    /// The number that planning must have.
    pub fn plan_number(&self) -> u8 {
        match (self.fault.number(), self.planned) {
            (0, _) if !self.images.is_sized() => 16,
            (0, Err(_)) => 21,
            (0, Ok(writes)) if writes > self.list => 17,
            (number, _) => number,
        }
    }
}

/// A session with some breakpoints.
fn session(rng: &mut Rng) -> Session {
    let size = match rng.weighted(&[20, 50, 26, 3, 1]) {
        0 => 4,
        1 => 4 * (1 + rng.below(16)),
        2 => 4 * (1 + rng.below(64)),
        3 => 4 * (1 + rng.below(1_024)),
        _ => 65_536,
    };
    let top = size.wrapping_neg();
    let any = (rng.word() & !3).clamp(4_096, top);
    let base = rng.pick(&[4_096, top, top, any]);
    let (mut memory, registers) = (rng.bytes(size as usize), vec![0; BLOCK]);
    let (mut stub, protected) = (Stub::empty(), stretch(rng, base, size));
    let done = stub.setup(base, size, protected, &[(5, 0)], &memory, &registers);
    done.expect("a sound setup");
    let mut registers = registers;
    for id in 0..rng.below(9) {
        let site = base + 2 * rng.below(size / 2);
        for (letter, val) in [(b'n', id), (b'b', site)] {
            let (request, mut reply) = (ten(16, val, &[letter]), [0; 10]);
            let done = stub.request(&mut memory, &mut registers, &request, &mut reply);
            done.expect("a fit record");
        }
    }
    Session { stub, memory, registers }
}

struct Maker<'a> {
    rng: &'a mut Rng,
    place: Place,
    plain: Vec<u8>,
}

impl Maker<'_> {
    fn made(mut self, stub: &Stub, mut memory: Vec<u8>, mut registers: Vec<u8>) -> Made {
        let images = Images::ALL[self.rng.weighted(&[12, 14, 10, 30, 8, 8, 12, 3, 3])].0;
        // Long offers take long.
        let weights = [16, 10, 10, 10, 10, 6, 6, 6, 6, 6, 6, 8, 1, 1, 6];
        let offered = Offer::ALL[self.rng.weighted(&weights)].0;
        let places = Room::ALL[self.rng.weighted(&[40, 20, 30, 10])].0;
        let fault = Fault::ALL[self.rng.weighted(&[84, 4, 4, 4, 4])].0;
        let aim = self.aim(images);
        let (offered, offer, judged) = self.offer(offered, &aim);
        let (images, mut wanted) = self.spoil_protected(images, aim);
        let differs = images == Images::Protected && judged == Some(Judged::Accepted);
        let judged = if differs { Some(Judged::Differ) } else { judged };
        let planned = self.planned(&wanted);
        match images {
            Images::Shorter => wanted.truncate(self.rng.index(wanted.len())),
            Images::Longer => wanted.resize(wanted.len() + 1 + self.rng.index(9), 0),
            _ => {}
        }
        let needed = planned.unwrap_or(0);
        let (places, list) = match places {
            Room::OneShort if needed > 0 => (places, needed - 1),
            Room::More => (places, needed + 1 + self.rng.index(9)),
            Room::None => (places, 0),
            _ => (Room::Exact, needed),
        };
        let (mut record, mut room) = (written(stub), memory.len());
        match fault {
            Fault::None => {}
            Fault::Memory => resize(self.rng, &mut memory),
            Fault::Registers => resize(self.rng, &mut registers),
            Fault::Room => room = other(self.rng, room),
            Fault::Record => spoil(self.rng, &mut record),
        }
        let fill = self.any_write();
        Made {
            record,
            memory,
            registers,
            wanted,
            offer,
            room,
            list,
            fill,
            fault,
            images,
            offered,
            places,
            judged,
            planned,
        }
    }

    fn is_protected(&self, at: usize) -> bool {
        self.place.protected.contains(&(u64::from(self.place.base) + at as u64))
    }

    fn address(&self, at: usize) -> u32 {
        self.place.base + at as u32
    }

    /// An image that differs from the plain one where nothing is protected.
    fn aim(&mut self, images: Images) -> Vec<u8> {
        let (last, one) = (self.plain.len() - 1, self.rng.index(self.plain.len()));
        let share = self.rng.pick(&[2, 10, 40, 80]);
        let mut wanted = self.plain.clone();
        for (at, byte) in wanted.iter_mut().enumerate() {
            let differs = match images {
                Images::Equal => false,
                Images::One => at == one,
                Images::Last => at == last,
                Images::Alternating => at % 2 == one % 2,
                Images::All => true,
                _ => self.rng.chance(share),
            };
            if differs && !self.is_protected(at) {
                *byte ^= 1 + self.rng.byte() % 255;
            }
        }
        wanted
    }

    /// Makes a protected byte or some differ too, where there are any.
    fn spoil_protected(&mut self, images: Images, mut wanted: Vec<u8>) -> (Images, Vec<u8>) {
        let protected: Vec<usize> = (0..wanted.len()).filter(|&at| self.is_protected(at)).collect();
        if images != Images::Protected {
            return (images, wanted);
        }
        if protected.is_empty() {
            return (Images::Few, wanted);
        }
        for _ in 0..=self.rng.below(2) {
            let at = self.rng.pick(&protected);
            wanted[at] = self.plain[at] ^ (1 + self.rng.byte() % 255);
        }
        (images, wanted)
    }

    /// The count of the plan's writes by counting alone: each covers four bytes from the lowest
    /// differing one on, or those up to the stretch or the end.
    fn planned(&self, wanted: &[u8]) -> Result<usize, u32> {
        let differing = (0..wanted.len()).filter(|&at| self.plain[at] != wanted[at]);
        if let Some(at) = differing.clone().find(|&at| self.is_protected(at)) {
            return Err(self.address(at));
        }
        // Differing bytes on both sides of the stretch are never in one write.
        let (mut writes, mut covered) = (0, 0);
        for at in differing {
            if at >= covered {
                writes += 1;
                covered = at + 4;
                if let Some(cut) = (at..covered).find(|&at| self.is_protected(at)) {
                    covered = cut;
                }
            }
        }
        Ok(writes)
    }

    fn any_write(&mut self) -> Write {
        let (address, count) = (self.rng.word(), self.rng.below(7));
        Write { address, count, bytes: self.rng.word().to_le_bytes() }
    }

    /// A write of the wanted bytes at any free place; none where all is protected.
    fn idle_write(&mut self, wanted: &[u8]) -> Option<Write> {
        let start = self.rng.index(wanted.len());
        let mut order = (0..wanted.len()).map(|i| (start + i) % wanted.len());
        let at = order.find(|&at| !self.is_protected(at))?;
        let most = (at..wanted.len().min(at + 4)).take_while(|&at| !self.is_protected(at)).count();
        let count = 1 + self.rng.index(most);
        let mut bytes = self.rng.word().to_le_bytes();
        bytes[..count].copy_from_slice(&wanted[at..at + count]);
        Some(Write { address: self.address(at), count: count as u32, bytes })
    }

    /// An offer of the sort, or of another where there is none such, and what must be said of it.
    fn offer(&mut self, sort: Offer, wanted: &[u8]) -> (Offer, Vec<Write>, Option<Judged>) {
        let mut plan = self.place.plan(&self.plain, wanted).expect("no protected byte differs");
        for write in &mut plan {
            let noise = self.rng.word().to_le_bytes();
            let count = write.count as usize;
            write.bytes[count..].copy_from_slice(&noise[count..]);
        }
        match sort {
            Offer::Any => {
                let list = (0..self.rng.below(6)).map(|_| self.wild_write()).collect();
                (sort, list, None)
            }
            Offer::Longer => self.longer(plan, wanted).unwrap_or_else(|plan| self.as_planned(plan)),
            Offer::InOrder | Offer::OutOfOrder | Offer::Dropped if plan.is_empty() => {
                self.as_planned(plan)
            }
            Offer::InOrder | Offer::OutOfOrder => self.twice(sort, plan),
            Offer::Dropped => {
                plan.remove(self.rng.index(plan.len()));
                (sort, plan, Some(Judged::Differ))
            }
            Offer::Most | Offer::TooMany => self.many(sort, plan, wanted),
            Offer::Plan => self.as_planned(plan),
            _ => self.broken(sort, plan),
        }
    }

    fn as_planned(&self, plan: Vec<Write>) -> (Offer, Vec<Write>, Option<Judged>) {
        (Offer::Plan, plan, Some(Judged::Accepted))
    }

    fn longer(
        &mut self,
        mut plan: Vec<Write>,
        wanted: &[u8],
    ) -> Result<(Offer, Vec<Write>, Option<Judged>), Vec<Write>> {
        for _ in 0..=self.rng.below(4) {
            let Some(write) = self.idle_write(wanted) else { return Err(plan) };
            let place = self.rng.index(plan.len() + 1);
            plan.insert(place, write);
        }
        Ok((Offer::Longer, plan, Some(Judged::Accepted)))
    }

    /// One of the plan's writes, and the same with another first byte before it, or after it.
    fn twice(&mut self, sort: Offer, mut plan: Vec<Write>) -> (Offer, Vec<Write>, Option<Judged>) {
        let place = self.rng.index(plan.len());
        let mut wrong = plan[place];
        wrong.bytes[0] ^= 1 + self.rng.byte() % 255;
        let right = sort == Offer::InOrder;
        plan.insert(place + usize::from(!right), wrong);
        (sort, plan, Some(if right { Judged::Accepted } else { Judged::Differ }))
    }

    /// As many writes as there may be, or one more.
    fn many(
        &mut self,
        sort: Offer,
        mut plan: Vec<Write>,
        wanted: &[u8],
    ) -> (Offer, Vec<Write>, Option<Judged>) {
        let count = LONGEST_OFFER + usize::from(sort == Offer::TooMany);
        match self.idle_write(wanted) {
            Some(write) => plan.resize(count, write),
            None => return self.as_planned(plan),
        }
        (sort, plan, (sort == Offer::Most).then_some(Judged::Accepted))
    }

    /// The plan with a write among it that breaks a bound.
    fn broken(&mut self, sort: Offer, mut plan: Vec<Write>) -> (Offer, Vec<Write>, Option<Judged>) {
        let Some(write) = self.breaking(sort) else { return self.as_planned(plan) };
        let place = self.rng.index(plan.len() + 1);
        plan.insert(place, write);
        if self.rng.chance(20) {
            let later = place + 1 + self.rng.index(plan.len() - place);
            plan.insert(later, self.any_write());
        }
        (sort, plan, Some(Judged::Bound(place)))
    }

    fn breaking(&mut self, sort: Offer) -> Option<Write> {
        let (base, size) = (u64::from(self.place.base), self.plain.len() as u64);
        let end = base + size;
        let (n, any) = (1 + u64::from(self.rng.below(4)), self.rng.word());
        let bytes = self.rng.word().to_le_bytes();
        let within = base + u64::from(self.rng.below(size as u32));
        let (first, count) = match sort {
            Offer::Count0 => (within, 0),
            Offer::CountOver => {
                (within, u64::from(self.rng.pick(&[5, 5, 6, 8, 256, any.max(5), u32::MAX])))
            }
            Offer::Below => (base - self.rng.pick(&[1, n, 4]), n),
            Offer::Behind => (end + u64::from(self.rng.below(9)), n),
            Offer::OverEnd => (end - 1 - (n - 1) / 2, n + 1),
            Offer::OverTop => ((1 << 32) - n, n + 1),
            _ => {
                let stretch = self.place.protected.clone();
                let length = (stretch.end - stretch.start) as u32;
                let at = stretch.start + u64::from((length > 0).then(|| self.rng.below(length))?);
                (at.saturating_sub(self.rng.pick(&[0, 0, n - 1])).max(base), n)
            }
        };
        let write = Write { address: first.try_into().ok()?, count: count as u32, bytes };
        // Of a small window some of these may be sound.
        let reaches = |byte| !(base..end).contains(&byte) || self.place.protected.contains(&byte);
        let broken = !(1..=4).contains(&count) || (first..first + count).any(reaches);
        broken.then_some(write)
    }

    /// A write in, beside or far from the window.
    fn wild_write(&mut self) -> Write {
        let near = self
            .place
            .base
            .wrapping_sub(5)
            .wrapping_add(self.rng.below(self.plain.len() as u32 + 10));
        let any = self.any_write();
        Write { address: self.rng.pick(&[near, near, near, any.address]), ..any }
    }
}

/// Another length.
fn other(rng: &mut Rng, right: usize) -> usize {
    let near = [0, right.saturating_sub(1), right + 1, right + 4, 2 * right];
    let length = rng.pick(&near);
    if length == right {
        right + 1
    } else {
        length
    }
}

fn resize(rng: &mut Rng, bytes: &mut Vec<u8>) {
    let length = other(rng, bytes.len());
    bytes.resize(length, 0);
    // No room past the length, so that valgrind sees a read there.
    bytes.shrink_to_fit();
}

/// Something that no fit record has.
fn spoil(rng: &mut Rng, record: &mut Record) {
    let target = record.target_mut();
    match rng.below(6) {
        0 => target.protected_offset ^= 2,
        1 => target.protected_length = u32::MAX - 3,
        2 => target.processes[0].pid = 0,
        3 => target.base ^= 1,
        4 => target.selected = 2,
        _ => target.table.entries[rng.index(8)].used = 3,
    }
}
