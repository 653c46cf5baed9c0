//! What is refused, by which number, and that a refused step leaves everything as it was.

mod common;

use common::*;
use sanirvoq::ffi::{Entry, Record, Target};
use sanirvoq::{Process, Refusal, Served, Setup, Stub, Verdict, TEXT};

/// A session with breakpoints 3 and 4, a condition in hand, a current and a Stopped process.
fn used() -> Session {
    let mut s = Session::worked();
    s.plant(3, &[], 4_104);
    s.plant(4, &[(b'k', 7), (b'a', 0)], 4_106);
    s.ask(cond(b'n', 9));
    s.ask(cond(b'p', 9));
    s.ask(with(6, 5, &[]));
    assert_eq!(s.trap(7, 4_104), Ok(Verdict::Stop(3)));
    s
}

type Step = fn(&mut Session, &mut [u8]) -> Result<(), Refusal>;

/// What every step after setup answers. A refused one must change nothing; each has its own copy.
fn every_step(session: &Session) -> [Result<(), Refusal>; 6] {
    let steps: [Step; 6] = [
        |s, reply| {
            let done = s.stub.request(&mut s.memory, &mut s.registers, &mget(0x1004, 4), reply);
            done.map(|served| assert_eq!(served, Served::Reply))
        },
        |s, _| s.trap(5, 4_104).map(drop),
        |s, _| s.schedule(5, 4_104).map(drop),
        |s, _| s.state(5, 3),
        |s, reply| s.stub.restart(&mut s.memory, &mut s.registers, reply),
        |s, _| {
            let (Session { stub, memory, registers }, mut reply) = (s, [0xee; TEXT]);
            let done = stub.text(memory, registers, b"0x0 I 0x1004 0x0", &mut reply);
            let done = done.map(|served| assert!(served.is_carried_out()));
            assert_eq!(done.is_err(), reply == [0xee; TEXT]);
            done
        },
    ];
    steps.map(|step| {
        let (mut now, mut reply) = (session.clone(), [0xee; 10]);
        let done = step(&mut now, &mut reply);
        if done.is_err() {
            assert_eq!((&now, reply), (session, [0xee; 10]));
        }
        done
    })
}

/// The session with its record changed.
fn changed(change: impl FnOnce(&mut Record)) -> Session {
    let mut s = used();
    let mut record = *s.stub.raw();
    change(&mut record);
    s.stub = Stub::from_raw(record);
    s
}

#[test]
#[cfg_attr(not(archive), ignore = "needs libsanirvoq.a")]
fn a_used_session_is_fit() {
    assert_eq!(every_step(&used()), [Ok(()); 6]);
}

#[test]
#[cfg_attr(not(archive), ignore = "needs libsanirvoq.a")]
fn lent_buffers_have_one_size() {
    for (memory, registers) in [(63, 272), (68, 272), (0, 272), (64, 271), (64, 273), (64, 0)] {
        let mut s = changed(|record| record.target.current = 6);
        s.memory.resize(memory, 0);
        s.registers.resize(registers, 0);
        assert_eq!(every_step(&s), [Err(Refusal::Size); 6], "{memory} {registers}");
    }
}

#[test]
#[cfg_attr(not(archive), ignore = "needs libsanirvoq.a")]
fn requests_replies_and_blocks_have_one_size() {
    let mut s = changed(|record| record.target.current = 6);
    let before = s.clone();
    let Session { stub, memory, registers } = &mut s;
    for length in [0, 9, 11, 135, 137] {
        let mut other = vec![0xee; length];
        let mut reply = [0xee; 10];
        let size = Err(Refusal::Size);
        assert_eq!(stub.request(memory, registers, &other, &mut reply), size);
        assert_eq!(stub.request(memory, registers, &mget(B, 1), &mut other), size);
        assert_eq!(stub.restart(memory, registers, &mut other), Err(Refusal::Size));
        assert_eq!(stub.trap(memory, registers, 99, &other), Err(Refusal::Size));
        assert_eq!(stub.schedule(memory, registers, 99, &other), Err(Refusal::Size));
        assert_eq!((other, reply), (vec![0xee; length], [0xee; 10]));
    }
    assert_eq!(s, before);
}

/// Gives entries 0 and 1 and the condition in hand so many elements, all of them `*`.
fn stars(record: &mut Record, counts: [u8; 3]) {
    record.places.chunks_exact_mut(2).for_each(|place| place.copy_from_slice(&[b'*'.into(), 0]));
    let table = &mut record.target.table;
    (table.entries[0].count, table.entries[1].count, table.draft.count) =
        (counts[0], counts[1], counts[2]);
}

/// Changes that spoil the record, each by one rule. Places 0 and 1 are those of entry 1, place 2 that
/// of the condition in hand.
const SPOILING: [fn(&mut Record); 36] = [
    |r| r.target.base += 2,
    |r| r.target.base = 0,
    |r| r.target.base = u32::MAX - 3,
    |r| r.target.processes[0].pid = 0,
    |r| r.target.processes[0].pid = 7,
    |r| r.target.processes[0].pid = 6,
    |r| r.target.processes[0].wanted = 2,
    |r| r.target.processes[1].wanted = 1,
    |r| r.target.selected = 2,
    |r| r.target.current = 6,
    |r| r.target.table.entries[0].used = 2,
    |r| r.target.table.entries[0].id = 4,
    |r| r.target.table.entries[0].site = 4_105,
    |r| r.target.table.entries[0].site = 4_106,
    |r| r.target.table.entries[0].site = 4_108,
    |r| r.target.table.entries[0].site = 4_160,
    |r| r.target.table.entries[0].site = 4_094,
    |r| r.target.table.entries[0].site = u32::MAX,
    |r| r.target.table.entries[0].count = 1,
    |r| r.target.table.entries[1].count = 1,
    |r| r.target.table.entries[1].count = 128,
    |r| r.target.table.entries[1].count = 255,
    |r| r.target.table.draft.active = 2,
    |r| r.target.table.draft.id = 3,
    |r| r.places[0] = b'z'.into(),
    |r| r.places[0] = u32::from(b'k') + 256,
    |r| r.places[2] |= 1 << 31,
    |r| r.places[3] = 1,
    |r| (r.places[4], r.places[5]) = (b'='.into(), 0),
    |r| stars(r, [65, 0, 0]),
    |r| stars(r, [0, 65, 0]),
    |r| stars(r, [0, 0, 65]),
    |r| stars(r, [64, 64, 1]),
    |r| stars(r, [1, 64, 64]),
    |r| stars(r, [43, 43, 43]),
    |r| stars(r, [255, 255, 255]),
];

#[test]
#[cfg_attr(not(archive), ignore = "needs libsanirvoq.a")]
fn a_spoiled_record_is_refused_by_every_step() {
    for (i, change) in SPOILING.iter().enumerate() {
        assert_eq!(every_step(&changed(change)), [Err(Refusal::Unfit); 6], "change {i}");
    }
}

/// Changes of what no rule speaks of.
const HARMLESS: [fn(&mut Record); 9] = [
    |r| r.target.processes[0].state = 200,
    |r| r.target.processes[3].pid = 7,
    |r| r.target.selected = 0,
    |r| r.target.table.entries[0].plain = [0x02, 0x90, 0xff, 0xff],
    |r| r.target.table.entries[7] = Entry { id: 4, site: 4_105, count: 99, ..Entry::default() },
    |r| r.places[6..].fill(u32::MAX),
    |r| stars(r, [64, 64, 0]),
    |r| stars(r, [0, 64, 64]),
    |r| stars(r, [43, 42, 43]),
];

#[test]
#[cfg_attr(not(archive), ignore = "needs libsanirvoq.a")]
fn what_no_rule_speaks_of_spoils_nothing() {
    for (i, change) in HARMLESS.iter().enumerate() {
        assert_eq!(every_step(&changed(change)), [Ok(()); 6], "change {i}");
    }
}

#[test]
#[cfg_attr(not(archive), ignore = "needs libsanirvoq.a")]
fn an_outside_change_of_a_trap_is_refused_until_it_is_put_back() {
    let mut s = used();
    s.memory[8] = 8;
    assert_eq!(every_step(&s), [Err(Refusal::Unfit); 6]);
    s.memory[8] = 0x02;
    assert_eq!(every_step(&s), [Ok(()); 6]);
}

#[test]
#[cfg_attr(not(archive), ignore = "needs libsanirvoq.a")]
fn any_bytes_are_a_record() {
    let s = changed(|record| {
        let site = u32::MAX;
        record.target.table.entries =
            [Entry { used: 0xff, id: 0xff, count: 0xff, plain: [0xff; 4], site }; 8];
        record.target.table.draft.count = 0xff;
        record.places.fill(u32::MAX);
    });
    assert_eq!(every_step(&s), [Err(Refusal::Unfit); 6]);
    let mut s = changed(|record| record.target.count = u32::MAX);
    assert_eq!(every_step(&s), [Err(Refusal::Size); 6]);
    s = Session { stub: Stub::default(), memory: vec![], registers: vec![] };
    assert_eq!(every_step(&s), [Err(Refusal::Unfit); 6]);
}

/// A setup over a record that was in use, with buffers of these sizes, and what it leaves of the
/// record besides the places, which it leaves as they are.
fn setup(setup: &Setup<'_>, memory: usize, registers: usize) -> (Result<(), Refusal>, Target) {
    let (memory, registers) = (vec![0x11; memory], vec![0x22; registers]);
    let mut stub = used().stub;
    let places = stub.raw().places;
    let done = stub.setup_in_place(setup, &memory, &registers);
    assert!(memory.iter().all(|&byte| byte == 0x11) && registers.iter().all(|&byte| byte == 0x22));
    assert_eq!(stub.raw().places, places);
    let made = Stub::setup(setup, &memory, &registers);
    assert_eq!(made.map(|made| made.raw().target), done.map(|()| stub.raw().target));
    (done, stub.raw().target)
}

#[test]
#[cfg_attr(not(archive), ignore = "needs libsanirvoq.a")]
fn an_accepted_setup_makes_the_whole_record() {
    for (base, size) in [(B, 4), (B, 65_536), (0xffff_fffc, 4), (0xffff_0000, 65_536)] {
        let mut target = Target { base, size, count: 2, ..Target::default() };
        for (process, Process { pid, address }) in target.processes.iter_mut().zip(TWO) {
            (process.pid, process.address, process.state) = (pid, address, 2);
        }
        let window = Setup::new(base, size, &TWO);
        assert_eq!(setup(&window, size as usize, 272), (Ok(()), target));
        let (base, end) = (u64::from(base), u64::from(base) + u64::from(size));
        for (from, to) in [(base, base), (base, end), (end, end), (end - 4, end)] {
            let (offset, length) = ((from - base) as u32, (to - from) as u32);
            let protected = Target { protected_offset: offset, protected_length: length, ..target };
            let stretch = window.clone().protecting(from..to);
            assert_eq!(setup(&stretch, size as usize, 272), (Ok(()), protected));
        }
    }
}

#[test]
#[cfg_attr(not(archive), ignore = "needs libsanirvoq.a")]
fn a_broken_setup_rule_leaves_the_empty_record() {
    let empty = (Err(Refusal::Setup), Target::default());
    let windows = [
        (B, 0),
        (B, 2),
        (B, 6),
        (B, 65_540),
        (B - 4, 64),
        (B + 2, 64),
        (0xffff_fffc, 8),
        (0xffff_0004, 65_536),
    ];
    for (base, size) in windows {
        let window = Setup::new(base, size, &TWO);
        assert_eq!(setup(&window, size as usize, 272), empty, "{base} {size}");
    }
    for pids in [&[][..], &[1, 2, 3, 4, 9], &[0], &[5, 7, 5]] {
        let listed: Vec<_> = pids.iter().map(|&pid| Process { pid, address: 1 }).collect();
        let registers = 136 * pids.len();
        assert_eq!(setup(&Setup::new(B, 64, &listed), 64, registers), empty, "{pids:?}");
    }
    let stretches = [
        (4_098, 4_100),
        (4_100, 4_102),
        (4_092, 4_100),
        (4_104, 4_100),
        (4_156, 4_164),
        (4_164, 4_164),
        ((1 << 32) + 4_096, (1 << 32) + 4_100),
        (4_096, u64::MAX - 3),
    ];
    for (from, to) in stretches {
        let stretch = Setup::new(B, 64, &TWO).protecting(from..to);
        assert_eq!(setup(&stretch, 64, 272), empty, "{from} {to}");
    }
    assert_eq!(setup(&Setup::new(B + 2, 64, &TWO), 63, 271), empty, "1 comes before 2");
}

#[test]
#[cfg_attr(not(archive), ignore = "needs libsanirvoq.a")]
fn a_setup_over_wrong_buffers_leaves_the_empty_record() {
    let empty = (Err(Refusal::Size), Target::default());
    for (memory, registers) in [(63, 272), (68, 272), (0, 272), (64, 271), (64, 408), (64, 0)] {
        let window = Setup::new(B, 64, &TWO);
        assert_eq!(setup(&window, memory, registers), empty, "{memory} {registers}");
    }
}

#[test]
#[cfg_attr(not(archive), ignore = "needs libsanirvoq.a")]
fn events_are_refused_in_the_order_of_the_numbers() {
    let mut s = used();
    let before = s.clone();
    assert_eq!(s.trap(6, 4_104), Err(Refusal::Unlisted));
    assert_eq!(s.schedule(6, 4_104), Err(Refusal::Unlisted));
    assert_eq!(s.state(6, 8), Err(Refusal::Unlisted));
    assert_eq!(s.trap(7, 4_102), Err(Refusal::Stopped));
    assert_eq!(s.state(7, 2), Err(Refusal::Stopped));
    assert_eq!(s.state(5, 8), Err(Refusal::Stopped));
    assert_eq!(s.trap(5, 4_102), Err(Refusal::NoSite));
    assert_eq!(s.trap(5, 4_105), Err(Refusal::NoSite));
    assert_eq!(s, before);
}
