//! What a case has a stub do, over and over. Every turn finds what the turn before it found.

use crate::side::{Event, Request, Side};
use std::hint::black_box;

pub enum Work {
    /// A setup over the same record and buffers.
    Setup,
    /// Requests that together leave things as they were.
    Requests(Vec<Request>),
    /// Text requests that together leave things as they were.
    Texts(Vec<String>),
    /// A request before which the image is copied back: one that changes things.
    Change(Request),
    /// A trap answered Pass.
    Pass(Event),
    /// A trap answered Stop: the state byte is set back after it.
    Stop(Event),
    /// A schedule event of a process that is to run on.
    Schedule(Event),
    /// A request that wants a stop and the schedule event that grants it: the state byte is set
    /// back after it.
    Wanted(Request, Event),
    /// A state event: a pid and its new state byte.
    State(u32, u8),
    /// A restart: the image is copied back before it.
    Restart,
    /// The image is copied back, and that is all.
    Copy,
}

impl Work {
    /// The steps of one turn.
    pub fn steps(&self) -> usize {
        match self {
            Self::Requests(list) => list.len(),
            Self::Texts(list) => list.len(),
            Self::Wanted(..) => 2,
            Self::Copy => 0,
            _ => 1,
        }
    }

    /// Whether a turn begins by copying the image back.
    pub fn copies(&self) -> bool {
        matches!(self, Self::Change(_) | Self::Restart | Self::Copy)
    }
}

/// Does the work so many times and hands each step's result to `see`. The work is chosen outside
/// the loops and the calls in them are direct, so that a turn is its steps and little else.
#[inline(never)]
pub fn run<S: Side>(side: &mut S, work: &Work, turns: u64, mut see: impl FnMut(&S, u32)) {
    let see = &mut see;
    match work {
        Work::Setup => each(side, turns, see, |side| side.setup()),
        Work::Requests(list) => {
            for _ in 0..turns {
                for request in list {
                    each(side, 1, see, |side| side.request(black_box(request)));
                }
            }
        }
        Work::Texts(list) => {
            for _ in 0..turns {
                for text in list {
                    each(side, 1, see, |side| side.text(black_box(text.as_bytes())));
                }
            }
        }
        Work::Change(request) => each(side, turns, see, |side| {
            side.restore();
            side.request(black_box(request))
        }),
        Work::Pass(event) => each(side, turns, see, |side| side.trap(black_box(event))),
        Work::Stop(event) => each(side, turns, see, |side| {
            let result = side.trap(black_box(event));
            side.set_ready();
            result
        }),
        Work::Schedule(event) => each(side, turns, see, |side| side.schedule(black_box(event))),
        Work::Wanted(request, event) => {
            for _ in 0..turns {
                each(side, 1, see, |side| side.request(black_box(request)));
                each(side, 1, see, |side| side.schedule(black_box(event)));
                side.set_ready();
            }
        }
        Work::State(pid, value) => {
            each(side, turns, see, |side| side.state(black_box(*pid), black_box(*value)))
        }
        Work::Restart => each(side, turns, see, |side| {
            side.restore();
            side.restart()
        }),
        Work::Copy => (0..turns).for_each(|_| side.restore()),
    }
}

/// The same step in every turn.
#[inline(always)]
fn each<S>(side: &mut S, turns: u64, see: &mut impl FnMut(&S, u32), step: impl Fn(&mut S) -> u32) {
    for _ in 0..turns {
        let result = step(side);
        see(side, result);
    }
}
