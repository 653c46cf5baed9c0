//! The sorts of damage. Each names the one thing that it does to a record.

use super::damage::{no_flag, past_counts, random_table, some_words, Damage};
use super::pool::{high_bit, no_letter, over_64, OPERATORS};
use super::setup::two;
use reference::{ENTRIES, PLACES, STOPPED, TRAP};
use sanirvoq::ffi::{Draft, Entry};

/// The number that steps with no other fault must have.
#[derive(Debug, Clone, Copy, PartialEq, Eq)]
pub enum Expect {
    /// 0, where nothing else is in the way.
    Fit,
    /// 3
    Unfit,
    /// 2
    Size,
    /// Any of them; a long run has each of these.
    Any(&'static [u8]),
}

impl Expect {
    pub fn allows(self, number: u8) -> bool {
        match self {
            Self::Fit => number == 0,
            Self::Unfit => number == 3,
            Self::Size => number == 2,
            Self::Any(_) => true,
        }
    }
}

type Apply = fn(&mut Damage<'_>) -> Option<()>;

pub struct Sort {
    pub name: &'static str,
    pub expect: Expect,
    /// None where the record has nothing that could be damaged so.
    pub(super) apply: Apply,
}

const fn sort(name: &'static str, expect: Expect, apply: Apply) -> Sort {
    Sort { name, expect, apply }
}

pub const SORTS: [Sort; 70] = [
    // The window.
    sort("B no multiple of 4", Expect::Unfit, |d| d.set(|t, rng| t.base ^= rng.pick(&[1, 2, 3]))),
    sort("B under 4,096", Expect::Unfit, |d| d.set(|t, rng| t.base = 4 * rng.below(1_024))),
    sort("B + M over 2^32", Expect::Unfit, |d| {
        let size = d.target().size;
        let over = 4 * d.rng.below(size / 4);
        (over > 0).then(|| d.target().base = over.wrapping_sub(size))
    }),
    sort("B another", Expect::Any(&[3]), |d| d.set(|t, rng| t.base = rng.word() & !3)),
    sort("M no size of a window, memory to suit", Expect::Unfit, |d| {
        let size = d.target().size;
        let size = d.rng.pick(&[0, 1, 2, 3, size + 1, size + 2, size + 3, size - 1, 65_540]);
        d.resize_memory(size)
    }),
    sort("M another size of a window, memory to suit", Expect::Any(&[0, 3]), |d| {
        let size = 4 * (1 + d.rng.below(40));
        d.resize_memory(size)
    }),
    sort("M another, memory not", Expect::Size, |d| d.set(|t, rng| t.size ^= 1 << rng.below(32))),
    // The protected stretch.
    sort("a stretch that begins at no multiple of 4", Expect::Unfit, |d| {
        d.set(|t, rng| t.protected_offset ^= rng.pick(&[1, 2, 3]))
    }),
    sort("a stretch of no multiple of 4", Expect::Unfit, |d| {
        d.set(|t, rng| t.protected_length ^= rng.pick(&[1, 2, 3]))
    }),
    sort("a stretch that leaves the window", Expect::Unfit, |d| {
        d.set(|t, rng| {
            let (offset, over) = (4 * rng.below(t.size / 4), some_words(rng));
            (t.protected_offset, t.protected_length) = (offset, t.size - offset + over);
        })
    }),
    sort("an empty stretch behind the window", Expect::Unfit, |d| {
        d.set(|t, rng| (t.protected_offset, t.protected_length) = (t.size + some_words(rng), 0))
    }),
    sort("a stretch that fits in 32 bits only", Expect::Unfit, |d| {
        d.set(|t, rng| {
            // Their sum is 2^32 and the end of a sound stretch.
            let (below, end) = (some_words(rng), 4 * rng.below(t.size / 4 + 1));
            let (one, other) = (below.wrapping_neg(), below + end);
            (t.protected_offset, t.protected_length) =
                if rng.chance(50) { (one, other) } else { (other, one) };
        })
    }),
    sort("a site in the stretch", Expect::Unfit, |d| {
        let i = d.used()?;
        let at = (d.target().table.entries[i].site - d.target().base) & !3;
        d.set(|t, rng| {
            let (before, after) = (rng.below(at / 4 + 1), rng.below((t.size - at) / 4));
            let (before, after) = (4 * rng.pick(&[0, before]), 4 * rng.pick(&[0, after]));
            (t.protected_offset, t.protected_length) = (at - before, before + 4 + after);
        })
    }),
    sort("another stretch, off all sites", Expect::Fit, |d| {
        let words = d.target().size / 4;
        let first = d.rng.below(words + 1);
        let (any, most) = (d.rng.below(words - first + 1), 1 << d.rng.below(8));
        let length = any.min(most);
        let (offset, length) = (4 * first, 4 * length);
        let (base, entries) = (d.target().base, d.target().table.entries);
        let within = |entry: &Entry| (entry.site - base).wrapping_sub(offset) < length;
        let free = !entries.iter().any(|entry| entry.used == 1 && within(entry));
        free.then(|| d.set(|t, _| (t.protected_offset, t.protected_length) = (offset, length)))?
    }),
    // The processes.
    sort("no process, no register", Expect::Unfit, |d| d.resize_registers(0)),
    sort("over four processes, registers to suit", Expect::Unfit, |d| {
        let count = 5 + d.rng.below(4);
        d.resize_registers(count)
    }),
    sort("one to four processes, registers to suit", Expect::Any(&[0, 3]), |d| {
        let count = 1 + d.rng.below(4);
        d.resize_registers(count)
    }),
    sort("a count that suits in 32 bits only", Expect::Size, |d| {
        d.set(|t, rng| t.count += (1 + rng.below(7)) << 29)
    }),
    sort("a count that does not suit", Expect::Size, |d| {
        d.set(|t, rng| t.count ^= 1 << rng.below(32))
    }),
    sort("pid 0", Expect::Unfit, |d| d.process(|one, _| one.pid = 0)),
    sort("equal pids", Expect::Unfit, |d| {
        let count = d.target().count as usize;
        let (one, other) = (count > 1).then(|| two(d.rng, count))?;
        d.target().processes[one].pid = d.target().processes[other].pid;
        Some(())
    }),
    sort("another pid", Expect::Any(&[0, 3]), |d| {
        d.process(|one, rng| one.pid ^= 1 << rng.below(32))
    }),
    sort("Stopped with a mark", Expect::Unfit, |d| {
        d.process(|one, _| (one.state, one.wanted) = (STOPPED, 1))
    }),
    sort("a mark of 2 to 255", Expect::Unfit, |d| d.process(|one, rng| one.wanted = no_flag(rng))),
    sort("selected of 2 to 255", Expect::Unfit, |d| d.set(|t, rng| t.selected = no_flag(rng))),
    sort("an unlisted current pid", Expect::Unfit, |d| {
        let any = d.rng.word();
        let first = d.target().processes[0].pid;
        let pid = d.rng.pick(&[0, any, first ^ 1, first.wrapping_add(1)]);
        (d.target().selected, d.target().current) = (1, pid);
        d.scene.stub.listed(pid).is_none().then_some(())
    }),
    // The breakpoints.
    sort("used of 2 to 255", Expect::Unfit, |d| {
        d.set(|t, rng| t.table.entries[rng.index(ENTRIES)].used = no_flag(rng))
    }),
    sort("equal ids", Expect::Unfit, |d| d.pair_up(|one, other| one.id = other.id)),
    sort("equal sites", Expect::Unfit, |d| d.pair_up(|one, other| one.site = other.site)),
    sort("an odd site", Expect::Unfit, |d| d.entry(|entry, _| entry.site ^= 1)),
    sort("a site outside", Expect::Unfit, |d| {
        let (base, size) = (d.target().base, d.target().size);
        let end = base.wrapping_add(size);
        let sites = [base - 2, end, end.wrapping_add(2), 0, 132, base ^ 0x8000_0000];
        let site = d.rng.pick(&sites);
        let outside = site.wrapping_sub(base) >= size;
        outside.then(|| d.entry(|entry, _| entry.site = site))?
    }),
    sort("a site with no trap", Expect::Unfit, |d| {
        let at = d.rng.index(d.scene.memory.len() / 2) * 2;
        let site = d.target().base + at as u32;
        let bare = d.scene.memory[at..at + 2] != TRAP;
        bare.then(|| d.entry(|entry, _| entry.site = site))?
    }),
    sort("a trap gone from memory", Expect::Unfit, |d| {
        let i = d.used()?;
        let site = d.target().table.entries[i].site;
        let at = (site - d.target().base) as usize + d.rng.index(2);
        let mut memory = d.scene.memory.to_vec();
        memory[at] ^= 1 << d.rng.below(8);
        d.made.memory = Some(memory);
        Some(())
    }),
    sort("an entry of over 64 elements", Expect::Unfit, |d| {
        d.entry(|entry, rng| entry.count = over_64(rng))
    }),
    sort("an entry of over 64 sound elements", Expect::Unfit, |d| {
        let i = d.used()?;
        d.long(i)
    }),
    sort("an entry of another count", Expect::Any(&[0, 3]), |d| {
        d.entry(|entry, rng| entry.count = entry.count.wrapping_add(rng.pick(&[1, 2, 254, 255])))
    }),
    sort("an entry with a letter that is none", Expect::Unfit, |d| {
        let letter = no_letter(d.rng);
        d.entry_place()?[0] = letter.into();
        Some(())
    }),
    sort("an entry with a letter over 255", Expect::Unfit, |d| {
        let bit = high_bit(d.rng);
        d.entry_place()?[0] |= bit;
        Some(())
    }),
    sort("an entry with a value at an operator", Expect::Unfit, |d| {
        let value = 1 << d.rng.below(32);
        let place = d.entry_place()?;
        let operator = OPERATORS.iter().any(|&letter| u32::from(letter) == place[0]);
        operator.then(|| place[1] = value)
    }),
    sort("an entry that lacks a value", Expect::Unfit, |d| {
        let (i, letter) = (d.used()?, d.rng.pick(b"&=!ao"));
        d.insert(i, false, letter, 0)
    }),
    sort("an entry that leaves two values", Expect::Unfit, |d| {
        let (i, letter, value) = (d.used()?, d.rng.pick(b"kp"), d.rng.word());
        d.insert(i, true, letter, value)
    }),
    sort("an entry forgotten, with its elements", Expect::Fit, |d| d.forget()),
    sort("an entry forgotten, its elements not", Expect::Any(&[0, 3]), |d| {
        d.entry(|entry, _| entry.used = 0)
    }),
    sort("a full table", Expect::Fit, |d| {
        d.fill_table()?;
        d.set(|t, _| t.table.draft.active = 0)
    }),
    // The places.
    sort("all 128 places held", Expect::Fit, |d| d.held_in_all(PLACES)),
    sort("129 places held", Expect::Unfit, |d| d.held_in_all(PLACES + 1)),
    sort("over 128 places held", Expect::Unfit, |d| {
        let total = PLACES + 1 + d.rng.index(4 * PLACES);
        d.held_in_all(total)
    }),
    // The condition in hand.
    sort("active of 2 to 255", Expect::Unfit, |d| {
        d.set(|t, rng| t.table.draft.active = no_flag(rng))
    }),
    sort("a draft with a used id", Expect::Unfit, |d| {
        let i = d.used()?;
        let id = d.target().table.entries[i].id;
        d.draft(|draft, _| draft.id = id)
    }),
    sort("a draft without a free entry", Expect::Unfit, |d| {
        d.fill_table()?;
        let id = d.free_id();
        d.set(|t, _| t.table.draft = Draft { active: 1, id, ..Draft::default() })
    }),
    sort("a draft of over 64 elements", Expect::Unfit, |d| {
        d.draft(|draft, rng| draft.count = over_64(rng))
    }),
    sort("a draft of over 64 sound elements", Expect::Unfit, |d| d.long_draft()),
    sort("a draft with a letter that is none", Expect::Unfit, |d| {
        let letter = no_letter(d.rng);
        d.draft_of(&[(letter, 0)]).map(|_| ())
    }),
    sort("a draft with a letter over 255", Expect::Unfit, |d| {
        let (letter, bit) = (d.rng.pick(b"kp*"), high_bit(d.rng));
        let first = d.draft_of(&[(letter, 0)])?;
        d.made.record.raw_mut().places[2 * first] |= bit;
        Some(())
    }),
    sort("a draft with a value at an operator", Expect::Unfit, |d| {
        let (operator, value) = (d.rng.pick(&OPERATORS), 1 << d.rng.below(32));
        d.draft_of(&[(b'p', 0), (operator, value)]).map(|_| ())
    }),
    sort("a draft that lacks a value", Expect::Unfit, |d| {
        let letter = d.rng.pick(b"&=!ao");
        d.draft_of(&[(letter, 0)]).map(|_| ())
    }),
    sort("a draft that no b can end", Expect::Fit, |d| d.unending_draft()),
    // What is of no account.
    sort("anything in free entries", Expect::Fit, |d| {
        let noise = d.noise();
        for (entry, noise) in d.target().table.entries.iter_mut().zip(noise.target().table.entries)
        {
            if entry.used == 0 {
                *entry = Entry { used: 0, ..noise };
            }
        }
        Some(())
    }),
    sort("anything past the counts", Expect::Fit, |d| {
        let (noise, held) = (d.noise(), d.scene.stub.held());
        past_counts(d.made.record.raw_mut(), noise.raw(), held);
        Some(())
    }),
    sort("anything in a draft not in hand", Expect::Fit, |d| d.anything_not_in_hand()),
    sort("anything current while none is", Expect::Fit, |d| {
        d.set(|t, rng| (t.selected, t.current) = (0, rng.word()))
    }),
    sort("anything in padding", Expect::Fit, |d| {
        let noise = d.noise();
        d.made.record.pad(&noise);
        Some(())
    }),
    sort("another state, Proc address and plain bytes", Expect::Fit, |d| {
        d.process(|one, rng| (one.state, one.address) = (rng.byte() | 1, rng.word()))?;
        let plain = d.rng.word().to_le_bytes();
        if let Some(i) = d.used() {
            d.target().table.entries[i].plain = plain;
        }
        Some(())
    }),
    // All over.
    sort("one bit", Expect::Any(&[0]), |d| {
        let (at, bit) = (d.rng.index(d.made.record.bytes().len()), d.rng.below(8));
        d.made.record.bytes_mut()[at] ^= 1 << bit;
        Some(())
    }),
    sort("one bit of a field that counts", Expect::Any(&[0, 3]), |d| {
        let bit = 1 << d.rng.below(8);
        let at = d.telling_byte();
        d.made.record.bytes_mut()[at] ^= bit;
        Some(())
    }),
    sort("one byte", Expect::Any(&[0, 3]), |d| {
        let (at, byte) = (d.telling_byte(), d.rng.byte());
        d.made.record.bytes_mut()[at] = byte;
        Some(())
    }),
    sort("random bytes", Expect::Any(&[2]), |d| {
        *d.made.record = d.noise();
        Some(())
    }),
    sort("random bytes, but B, M and count", Expect::Any(&[3]), |d| {
        let mut noise = d.noise();
        let (kept, target) = (*d.target(), noise.target_mut());
        (target.base, target.size, target.count) = (kept.base, kept.size, kept.count);
        *d.made.record = noise;
        Some(())
    }),
    sort("random breakpoints with sound flags", Expect::Any(&[0, 3]), |d| {
        let noise = d.noise();
        random_table(d.made.record.raw_mut(), noise.raw(), d.rng);
        Some(())
    }),
    sort("nothing", Expect::Fit, |_| Some(())),
];
