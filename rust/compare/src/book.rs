//! The book of demand 3 beside a session: what it is fed, and what the record must have of it.

use crate::op::{Call, Kind};
use crate::pair::Answer;
use reference::{Book, Claim, Places, Planted, Verdict, STOPPED};
use sanirvoq::{ffi, Element};

/// Feeds an accepted step, with the register area that it was lent.
pub fn feed(book: &mut Book, call: &Call, registers: &[u8], proved: &Answer) -> Claim {
    let wrong = |_| "an accepted step has an input or a reply of wrong size";
    match (call.kind, proved.result) {
        (Kind::Request, [_, answer, first, second]) => {
            let request = call.input[..].try_into().map_err(wrong)?;
            let reply = proved.reply[..].try_into().map_err(wrong)?;
            book.request(request, registers, reply, (answer == 2).then_some([first, second]))?;
        }
        (Kind::Trap, [_, answer, first, second]) => {
            let pass = Verdict::Pass([first, second]);
            let verdict = if answer == 1 { Verdict::Stop(first) } else { pass };
            book.trap(call.pid, call.input[..].try_into().map_err(wrong)?, verdict)?;
        }
        (Kind::Schedule, [_, answer, ..]) => book.schedule(call.pid, answer == 1),
        (Kind::Restart, _) => book.restart(),
        (Kind::Text, [_, _, filled, _]) => {
            let reply = proved.reply.get(..usize::from(filled));
            book.text(&call.input, reply.ok_or("a reply is longer than its buffer")?)?;
        }
        (Kind::Setup | Kind::State, _) => {}
    }
    Ok(())
}

/// The record has the book's breakpoints and no other, its Stopped processes and no other, and in
/// hand nothing but the book's draft. The book keeps a draft that the stub dropped.
pub fn record_has(record: &ffi::Record, book: &Book) -> Claim {
    let target = &record.target;
    let entries = || target.table.entries.iter().enumerate();
    let used = || entries().filter(|(_, entry)| entry.used == 1);
    let has = |one: &Planted| {
        used().any(|(index, entry)| {
            (entry.site, u32::from(entry.id)) == (one.site, one.condition.id)
                && same(record.condition(index), &one.condition.elements)
        })
    };
    if used().count() != book.planted().len() || !book.planted().iter().all(has) {
        return Err("the record's breakpoints are not the book's");
    }
    let mut listed = target.processes.iter().take(target.count as usize);
    if !listed.all(|one| (one.state == STOPPED) == book.stopped().contains(&one.pid)) {
        return Err("the record's Stopped processes are not the book's");
    }
    let draft = &target.table.draft;
    let known = book.draft().is_some_and(|kept| {
        u32::from(draft.id) == kept.id && same(record.in_hand(), &kept.elements)
    });
    if draft.active == 1 && !known {
        return Err("the condition in hand is not the book's draft");
    }
    Ok(())
}

/// Whether elements are those that were sent.
fn same(elements: Option<impl Iterator<Item = Element>>, sent: &[(u8, u32)]) -> bool {
    let sent = sent.iter().map(|&(letter, value)| Element { letter: letter.into(), value });
    elements.is_some_and(|elements| elements.eq(sent))
}

/// Feeds the count of places an accepted step.
pub fn feed_places(places: &mut Places, call: &Call, proved: &Answer) {
    match call.kind {
        Kind::Request => {
            let bytes = (call.input.first_chunk(), proved.reply.first_chunk());
            if let (Some(request), Some(reply)) = bytes {
                places.request(request, reply);
            }
        }
        Kind::Restart => places.restart(),
        _ => {}
    }
}

/// The record holds as many places as the history says.
pub fn places_are_held(record: &ffi::Record, places: &Places) -> Claim {
    let draft = &record.target.table.draft;
    let in_hand = if draft.active == 1 { u64::from(draft.count) } else { 0 };
    if record.first_place(ffi::ENTRIES) as u64 + in_hand == places.held() {
        Ok(())
    } else {
        Err("the places held are not those of the history")
    }
}
