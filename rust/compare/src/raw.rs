//! A record of any bytes, from 01's paragraph on what is fit: what the types of the independent
//! stub cannot hold is not fit; what they hold, `reference::fit` judges. Also whether a record
//! shows what the independent stub has.

use crate::record::Record;
use reference::{Breakpoint, Draft, Element, List, Process, Protected, Stub, ENTRIES};
use sanirvoq::{ffi, Element as Place};

/// The record in the independent stub's types. None where a flag is neither 0 nor 1, there are more
/// processes than there is room for, elements would stand past the last place, or one is none.
pub fn held(record: &ffi::Record) -> Option<Stub> {
    let target = &record.target;
    let mut table = [const { None }; ENTRIES];
    for (index, (slot, entry)) in table.iter_mut().zip(&target.table.entries).enumerate() {
        if flag(entry.used)? {
            let plain = [entry.plain[0], entry.plain[1]];
            let elements = elements(record.condition(index))?;
            *slot = Some(Breakpoint { id: entry.id, site: entry.site, plain, elements });
        }
    }
    let draft = &target.table.draft;
    let draft = match flag(draft.active)? {
        true => Some(Draft { id: draft.id, elements: elements(record.in_hand())? }),
        false => None,
    };
    let current = flag(target.selected)?.then_some(target.current);
    let processes = processes(target)?;
    let (base, size, protected) = (target.base, target.size, protected(target));
    Some(Stub { base, size, protected, processes, table, draft, current })
}

/// Any two numbers are held.
fn protected(target: &ffi::Target) -> Protected {
    Protected { offset: target.protected_offset, length: target.protected_length }
}

fn flag(byte: u8) -> Option<bool> {
    match byte {
        0 => Some(false),
        1 => Some(true),
        _ => None,
    }
}

/// The first `count`; what is past them is of no account.
fn processes(target: &ffi::Target) -> Option<List<Process, 4>> {
    let listed = target.processes.get(..usize::try_from(target.count).ok()?)?;
    let mut list = List::new();
    for &ffi::Process { pid, address, state, wanted } in listed {
        list.push(Process { pid, address, state, wanted: flag(wanted)? });
    }
    Some(list)
}

/// A letter over 255 is none; val is unused, so zero, for all letters but k and p.
fn elements(places: Option<impl Iterator<Item = Place>>) -> Option<Vec<Element>> {
    let element = |Place { letter, value }: Place| {
        let letter = u8::try_from(letter).ok()?;
        let unused = !matches!(letter, b'k' | b'p');
        Element::of(letter, value).filter(|_| !unused || value == 0)
    };
    places?.map(element).collect()
}

/// Whether the record shows just what the independent stub has. What a free entry, a condition that
/// is not in hand, the room past a count or a place that is not held has is no part of that.
pub fn shows(record: &ffi::Record, stub: &Stub) -> bool {
    let target = &record.target;
    (target.base, target.size) == (stub.base, stub.size)
        && protected(target) == stub.protected
        && shows_processes(target, stub)
        && target.selected == u8::from(stub.current.is_some())
        && stub.current.is_none_or(|pid| target.current == pid)
        && stub.table.iter().enumerate().all(|(index, slot)| shows_entry(record, index, slot))
        && shows_draft(record, stub.draft.as_ref())
}

fn shows_processes(target: &ffi::Target, stub: &Stub) -> bool {
    let same = |(one, other): (&ffi::Process, &Process)| {
        (one.pid, one.address, one.state) == (other.pid, other.address, other.state)
            && one.wanted == u8::from(other.wanted)
    };
    target.count as usize == stub.processes.len()
        && target.processes.iter().zip(stub.processes.iter()).all(same)
}

fn shows_entry(record: &ffi::Record, index: usize, slot: &Option<Breakpoint>) -> bool {
    let entry = &record.target.table.entries[index];
    let Some(point) = slot else { return entry.used == 0 };
    (entry.used, entry.id, entry.site) == (1, point.id, point.site)
        && entry.plain[..2] == point.plain
        && shows_elements(record.condition(index), &point.elements)
}

fn shows_draft(record: &ffi::Record, stub: Option<&Draft>) -> bool {
    let draft = &record.target.table.draft;
    let Some(stub) = stub else { return draft.active == 0 };
    (draft.active, draft.id) == (1, stub.id) && shows_elements(record.in_hand(), &stub.elements)
}

fn shows_elements(places: Option<impl Iterator<Item = Place>>, elements: &[Element]) -> bool {
    places.is_some_and(|places| places.eq(elements.iter().map(|&one| sent(one))))
}

/// A record that shows just what the independent stub has, and zeros elsewhere.
pub fn written(stub: &Stub) -> Record {
    let mut made = Record::zeroed();
    let ffi::Record { target, places } = made.raw_mut();
    (target.base, target.size, target.count) = (stub.base, stub.size, stub.processes.len() as u32);
    let Protected { offset, length } = stub.protected;
    (target.protected_offset, target.protected_length) = (offset, length);
    for (slot, process) in target.processes.iter_mut().zip(stub.processes.iter()) {
        let &Process { pid, address, state, wanted } = process;
        *slot = ffi::Process { pid, address, state, wanted: wanted.into() };
    }
    (target.selected, target.current) = (stub.current.is_some().into(), stub.current.unwrap_or(0));
    let mut places = places.chunks_exact_mut(2);
    let mut put = |elements: &[Element]| {
        for (element, place) in elements.iter().zip(places.by_ref()) {
            let Place { letter, value } = sent(*element);
            place.copy_from_slice(&[letter, value]);
        }
        elements.len() as u8
    };
    for (entry, point) in target.table.entries.iter_mut().zip(&stub.table) {
        if let Some(Breakpoint { id, site, plain, elements }) = point {
            let plain = [plain[0], plain[1], 0, 0];
            *entry = ffi::Entry { used: 1, id: *id, count: put(elements), plain, site: *site };
        }
    }
    if let Some(Draft { id, elements }) = &stub.draft {
        target.table.draft = ffi::Draft { active: 1, id: *id, count: put(elements) };
    }
    made
}

/// The letter and the value of an element.
fn sent(element: Element) -> Place {
    let (letter, value) = match element {
        Element::Pid(val) => (b'k', val),
        Element::Literal(val) => (b'p', val),
        Element::Indirect => (b'*', 0),
        Element::And => (b'&', 0),
        Element::Equal => (b'=', 0),
        Element::Differ => (b'!', 0),
        Element::Both => (b'a', 0),
        Element::Either => (b'o', 0),
    };
    Place { letter: letter.into(), value }
}
