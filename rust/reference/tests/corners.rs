//! Corners of the requests and events, over the worked setup.

mod common;

use common::*;
use reference::{Reason, Refusal, Session, Verdict, READY, STOPPED};
use Reason::{Count, Inval, Notstop, Pid, Unk, Unsup};

const DONE: [u8; 10] = [17, 0, 0, 0, 0, 0, 0, 0, 0, 0];

/// A request that is refused and changes nothing.
fn refused(s: &mut Session, request: [u8; 10], reason: Reason) {
    let before = s.clone();
    assert_eq!(ask(s, request), rerr(reason), "{request:02x?}");
    assert_eq!(*s, before, "{request:02x?}");
}

/// A session with process 5 Stopped at 4,104 and current.
fn stopped() -> Session {
    let mut s = Session::worked();
    plant(&mut s, 1, &[], 4_104);
    assert_eq!(trap(&mut s, 5, 4_104), Ok(Verdict::Stop(1)));
    ask(&mut s, ten(6, 5, &[]));
    s
}

#[test]
fn types() {
    let mut s = Session::worked();
    for kind in 0..=255 {
        if ![2, 4, 6, 8, 10, 12, 14, 16].contains(&kind) {
            let reason = if kind == 18 || kind == 22 { Unsup } else { Unk };
            refused(&mut s, [kind; 10], reason);
            refused(&mut s, ten(kind, 5, &[]), reason);
        }
    }
}

#[test]
fn counts_and_unused_bytes() {
    let mut s = Session::worked();
    refused(&mut s, ten(2, 0, &[10, 1, 1, 1, 1]), Count);
    refused(&mut s, ten(2, u32::MAX, &[255]), Count);
    refused(&mut s, ten(4, 0, &[5, 1, 1, 1, 1]), Count);
    refused(&mut s, ten(2, 0, &[0, 0, 0, 0, 1]), Inval);
    refused(&mut s, ten(2, 0, &[1, 0, 0, 1, 0]), Inval);
    refused(&mut s, ten(4, B, &[0, 1, 0, 0, 0]), Inval);
    refused(&mut s, ten(4, B, &[3, 1, 2, 3, 4]), Inval);
    for kind in [6, 8, 10, 12, 14] {
        for place in 0..5 {
            let mut rest = [0; 5];
            rest[place] = 0x80;
            refused(&mut s, ten(kind, 6, &rest), Inval);
        }
        for pid in [0, 6, 5 << 24, 7 + 256] {
            refused(&mut s, ten(kind, pid, &[]), Pid);
        }
    }
}

#[test]
fn nothing_is_asked_of_no_bytes() {
    let mut s = Session::worked();
    for address in [0, 2, 135, 136, 4_095, B, B + 64, u32::MAX] {
        let before = s.clone();
        assert_eq!(ask(&mut s, mget(address, 0)), reply(3, &[]));
        assert_eq!(ask(&mut s, mput(address, &[])), reply(5, &[]));
        assert_eq!(s, before);
    }
}

#[test]
fn addresses() {
    for mut s in [Session::worked(), stopped()] {
        for (address, n) in [(135, 2), (128, 9), (136, 1), (140, 4), (4_095, 1), (4_095, 2)] {
            refused(&mut s, mget(address, n), Inval);
        }
        for (address, n) in [(B + 64, 1), (B + 63, 2), (B + 56, 9), (u32::MAX, 1), (u32::MAX, 9)] {
            refused(&mut s, mget(address, n), Inval);
        }
        for address in [u32::MAX, B + 61, B - 1, 133, 136, 0, 1, 2, 3] {
            refused(&mut s, mput(address, &[1, 2, 3, 4]), Inval);
        }
        assert_eq!(ask(&mut s, mget(B + 63, 1)), reply(3, &[63]));
        assert_eq!(ask(&mut s, mput(B + 60, &[1, 2, 3, 4])), reply(5, &[]));
        assert_eq!(s.memory[59..], [59, 1, 2, 3, 4]);
    }
}

#[test]
fn register_order_of_refusals() {
    let mut s = Session::worked();
    refused(&mut s, mget(127, 9), Pid);
    refused(&mut s, mput(4, &[1]), Pid);
    refused(&mut s, mput(3, &[1]), Inval);
    ask(&mut s, ten(6, 7, &[]));
    refused(&mut s, mget(0, 9), Notstop);
    refused(&mut s, mput(132, &[1, 2, 3, 4]), Notstop);
    refused(&mut s, mput(0, &[1]), Inval);
}

#[test]
fn registers_of_the_current_process() {
    let mut s = stopped();
    assert_eq!(ask(&mut s, mget(0, 4)), reply(3, &[0xab; 4]));
    assert_eq!(ask(&mut s, mget(127, 9))[6..], [0, 0, 0x10, 8]);
    assert_eq!(ask(&mut s, mput(4, &[9])), reply(5, &[]));
    assert_eq!(ask(&mut s, mput(132, &[1, 2, 3, 4])), reply(5, &[]));
    assert_eq!(s.registers[..6], [0xab, 0xab, 0xab, 0xab, 9, 0xab]);
    assert_eq!(s.registers[132..140], [1, 2, 3, 4, 0, 0, 0, 0]);
    plant(&mut s, 2, &[], 4_110);
    trap(&mut s, 7, 4_110).unwrap();
    assert_eq!(ask(&mut s, mget(132, 4)), reply(3, &[1, 2, 3, 4]), "5 is still current");
    ask(&mut s, ten(6, 7, &[]));
    assert_eq!(ask(&mut s, mget(132, 4)), reply(3, &[0, 0, 0x10, 0x0e]));
    refused(&mut s, ten(6, 6, &[]), Pid);
    assert_eq!(s.stub.current, Some(7));
}

#[test]
fn one_write_meets_three_sites() {
    let mut s = Session::worked();
    for (id, site) in [(1, 4_104), (2, 4_106), (3, 4_108)] {
        plant(&mut s, id, &[], site);
    }
    assert_eq!(ask(&mut s, mput(4_105, &[0xa1, 0xa2, 0xa3, 0xa4])), reply(5, &[]));
    assert_eq!(s.memory[7..15], [7, 2, 0x90, 2, 0x90, 2, 0x90, 14]);
    assert_eq!(ask(&mut s, mget(4_103, 8)), reply(3, &[7, 8, 0xa1, 0xa2, 0xa3, 0xa4, 13, 14]));
    ask(&mut s, cond(b'd', 2));
    assert_eq!(s.memory[7..15], [7, 2, 0x90, 0xa2, 0xa3, 2, 0x90, 14]);
    restart(&mut s);
    assert_eq!(s.memory[7..15], [7, 8, 0xa1, 0xa2, 0xa3, 0xa4, 13, 14]);
}

#[test]
fn a_trap_in_memory_is_no_obstacle() {
    let mut s = Session::worked();
    ask(&mut s, mput(4_104, &[0x02, 0x90]));
    plant(&mut s, 1, &[], 4_104);
    assert_eq!(s.stub.table[0].as_ref().unwrap().plain, [0x02, 0x90]);
    ask(&mut s, cond(b'd', 1));
    assert_eq!(s.memory[8..10], [0x02, 0x90]);
}

#[test]
fn beginning_a_condition() {
    let mut s = Session::worked();
    plant(&mut s, 255, &[], 4_104);
    for val in [255, 256, 256 + 3, u32::MAX] {
        assert_eq!(ask(&mut s, cond(b'n', 7)), DONE);
        assert_eq!(ask(&mut s, cond(b'n', val)), rerr(Inval));
        assert_eq!(s.stub.draft, None);
    }
    assert_eq!(ask(&mut s, cond(b'n', 7)), DONE);
    assert_eq!(ask(&mut s, cond(b'k', 7)), DONE);
    assert_eq!(ask(&mut s, cond(b'n', 7)), DONE, "the id in hand begins anew");
    assert_eq!((s.stub.draft.as_ref().unwrap().elements.len(), s.stub.held()), (0, 0));
}

#[test]
fn a_full_table() {
    let mut s = Session::worked();
    for id in 0..8 {
        plant(&mut s, id, &[], 4_096 + 2 * id);
    }
    refused(&mut s, cond(b'n', 8), Count);
    refused(&mut s, cond(b'n', 7), Inval);
    refused(&mut s, cond(b'n', 256), Inval);
    ask(&mut s, cond(b'd', 4));
    ask(&mut s, cond(b'd', 2));
    plant(&mut s, 9, &[], 4_120);
    assert_eq!(s.stub.table[2].as_ref().unwrap().id, 9, "the free entry of the lowest index");
    assert_eq!(s.stub.table[4], None);
}

#[test]
fn elements_in_order_of_refusals() {
    let mut s = Session::worked();
    refused(&mut s, cond(b'k', 5), Inval);
    refused(&mut s, cond(b'*', 0), Inval);
    for letter in *b"&=!ao" {
        ask(&mut s, cond(b'n', 1));
        assert_eq!(ask(&mut s, cond(letter, 0)), rerr(Inval));
        assert_eq!(s.stub.draft, None);
    }
    // A 65th is count, with the values it needs or without.
    for letter in *b"kp*&=!ao" {
        ask(&mut s, cond(b'n', 1));
        for _ in 0..64 {
            assert_eq!(ask(&mut s, cond(b'*', 0)), DONE);
        }
        assert_eq!(s.stub.held(), 64);
        assert_eq!(ask(&mut s, cond(letter, 0)), rerr(Count));
        assert_eq!((s.stub.draft.as_ref(), s.stub.held()), (None, 0));
    }
    plant(&mut s, 1, &[(b'*', 0); 64], 4_104);
}

/// A session in which breakpoints 1 and 2 hold all 128 places.
fn all_held() -> Session {
    let mut s = Session::worked();
    plant(&mut s, 1, &[(b'*', 0); 64], 4_104);
    plant(&mut s, 2, &[(b'k', 7), (b'a', 0)].repeat(32), 4_106);
    assert_eq!(s.stub.held(), 128);
    s
}

#[test]
fn an_element_with_no_place_left_is_count() {
    let mut s = all_held();
    let full = s.clone();
    // Nothing in hand comes first; n needs no place; values that lack come last.
    for letter in *b"kp*&=!ao" {
        refused(&mut s, cond(letter, 0), Inval);
        assert_eq!(ask(&mut s, cond(b'n', 3)), DONE);
        assert_eq!(s.stub.held(), 128);
        assert_eq!(ask(&mut s, cond(letter, 0)), rerr(Count));
        assert_eq!(s, full);
    }
    plant(&mut s, 3, &[], 4_108);
    assert_eq!((trap(&mut s, 5, 4_108), s.stub.held()), (Ok(Verdict::Stop(3)), 128));
    assert_eq!(trap(&mut s, 5, 4_106), Err(Refusal::Stopped));
    assert_eq!(trap(&mut s, 7, 4_106), Ok(Verdict::Stop(2)));
}

#[test]
fn places_are_given_back() {
    // By d, with a condition in hand that then has room for what was refused.
    let mut s = all_held();
    ask(&mut s, cond(b'n', 3));
    ask(&mut s, cond(b'd', 2));
    assert_eq!(s.stub.held(), 64);
    for i in 0..64 {
        assert_eq!(ask(&mut s, cond(b'p', i)), DONE);
    }
    assert_eq!(s.stub.held(), 128);
    // By n, which replaces what is in hand, and by a refusal that drops it.
    assert_eq!((ask(&mut s, cond(b'n', 3)), s.stub.held()), (DONE, 64));
    assert_eq!((ask(&mut s, cond(b'p', 9)), s.stub.held()), (DONE, 65));
    assert_eq!((ask(&mut s, cond(b'd', 9)), s.stub.held()), (rerr(Inval), 65));
    assert_eq!((ask(&mut s, cond(b'z', 0)), s.stub.held()), (rerr(Inval), 64));
    // By a restart, those of the condition in hand too.
    ask(&mut s, cond(b'n', 3));
    ask(&mut s, cond(b'p', 9));
    restart(&mut s);
    assert_eq!(s.stub.held(), 0);
}

#[test]
fn letters_and_unused_bytes_come_first() {
    let mut s = Session::worked();
    plant(&mut s, 3, &[], 4_104);
    ask(&mut s, cond(b'n', 1));
    let held = s.clone();
    // d and three zeros with a non-zero ninth byte, or an unknown id: the condition stays.
    for request in [ten(16, 3, b"d\0\0\0\x01"), cond(b'd', 4), cond(b'd', 3 + 256)] {
        refused(&mut s, request, Inval);
    }
    let dropping = [
        ten(16, 3, b"d\0\0\x01"),
        ten(16, 3, b"d\x01"),
        ten(16, 1, b"*"),
        ten(16, 1 << 24, b"*"),
        ten(16, 0, b"z"),
        ten(16, 0, b""),
        ten(16, 0, b"K"),
        ten(16, 0, b"kk"),
        ten(16, 0, b"k\0\0\0\x01"),
        ten(16, 2, b"n\0\x01"),
    ];
    for request in dropping {
        s = held.clone();
        assert_eq!(ask(&mut s, request), rerr(Inval), "{request:02x?}");
        s.stub.draft.clone_from(&held.stub.draft);
        assert_eq!(s, held);
        assert_eq!(ask(&mut s, request), rerr(Inval));
        assert_eq!(s.stub.draft, None, "{request:02x?}");
    }
}

#[test]
fn setting_a_breakpoint() {
    let mut s = Session::worked();
    refused(&mut s, cond(b'b', 4_104), Inval);
    plant(&mut s, 3, &[], 4_104);
    for site in [4_104, 4_105, 4_159, 4_094, 4_160, 0, 132, u32::MAX - 1] {
        ask(&mut s, cond(b'n', 1));
        assert_eq!(ask(&mut s, cond(b'b', site)), rerr(Inval));
        refused(&mut s, cond(b'b', 4_108), Inval);
    }
    ask(&mut s, cond(b'n', 1));
    ask(&mut s, cond(b'k', 1));
    assert_eq!(ask(&mut s, cond(b'b', 4_108)), rerr(Inval), "depth 2");
    plant(&mut s, 1, &[], 4_158);
    plant(&mut s, 2, &[], 4_096);
}

/// Whether a condition is true for process 5, with `*` reading bytes 0 to 63.
fn truth(list: &[(u8, u32)]) -> bool {
    let mut s = Session::worked();
    plant(&mut s, 1, list, 4_120);
    let before = s.clone();
    let verdict = trap(&mut s, 5, 4_120).unwrap();
    if verdict == Verdict::Pass([24, 25]) {
        assert_eq!(s, before);
        return false;
    }
    assert_eq!(verdict, Verdict::Stop(1));
    true
}

#[test]
fn values() {
    let p = |val| (b'p', val);
    let (k, at) = (|val| (b'k', val), (b'*', 0));
    let [and, eq, ne, both, either] = [b'&', b'=', b'!', b'a', b'o'].map(|letter| (letter, 0));
    assert!(truth(&[]));
    assert!(truth(&[p(1), eq]), "the value of the final b is 1");
    assert!(!truth(&[p(2), eq]) && truth(&[p(2), ne]) && !truth(&[p(2), and]));
    assert!(truth(&[p(3), and]) && truth(&[p(2), both]) && !truth(&[p(0), both]));
    assert!(truth(&[p(0), either]) && truth(&[p(0), both, p(4), either]));
    assert!(truth(&[k(5), both]) && !truth(&[k(7), both]) && !truth(&[k(0), both]));
    assert!(truth(&[at]) && truth(&[at, p(0), both]), "address 1 is outside");
    assert!(!truth(&[p(4_097), at, p(0x0403_0201), ne, both]), "any alignment");
    assert!(truth(&[p(4_156), at, p(0x3f3e_3d3c), eq, both]));
    for outside in [4_157, 4_093, 4_160, 0, 132, u32::MAX, u32::MAX - 3] {
        assert!(truth(&[p(outside), at, p(0), both, both]), "{outside}");
    }
    assert!(truth(&[p(4_119), at, p(0x1a19_1817), eq, both]), "plain bytes under the trap");
    assert!(!truth(&[p(0), both, p(0xffff_0000), p(0x0000_ffff), and, either]));
    assert!(truth(&[k(7), k(5), either, both]) && !truth(&[k(7), k(5), both, both]));
}

#[test]
fn stars_read_what_was_written() {
    let mut s = Session::worked();
    let list = [(b'p', 4_103), (b'*', 0), (b'p', 0xa2a1_0807), (b'=', 0), (b'a', 0)];
    plant(&mut s, 1, &list, 4_104);
    assert_eq!(trap(&mut s, 5, 4_104), Ok(Verdict::Pass([8, 9])));
    ask(&mut s, mput(4_105, &[0xa1, 0xa2]));
    assert_eq!(trap(&mut s, 5, 4_104), Ok(Verdict::Stop(1)));
    assert_eq!(trap(&mut s, 7, 4_104), Ok(Verdict::Stop(1)));
    restart(&mut s);
    assert_eq!(s.memory[8..11], [8, 0xa1, 0xa2]);
}

#[test]
fn numbers_of_events_go_in_order() {
    let mut s = stopped();
    let before = s.clone();
    for pid in [0, 6, u32::MAX] {
        assert_eq!(trap(&mut s, pid, 4_104), Err(Refusal::Unlisted));
        assert_eq!(schedule(&mut s, pid, 4_104), Err(Refusal::Unlisted));
        assert_eq!(state(&mut s, pid, STOPPED), Err(Refusal::Unlisted));
    }
    assert_eq!(trap(&mut s, 5, 4_106), Err(Refusal::Stopped));
    assert_eq!(state(&mut s, 5, READY), Err(Refusal::Stopped));
    assert_eq!(state(&mut s, 7, STOPPED), Err(Refusal::Stopped));
    for pc in [4_102, 4_103, 4_105, 4_106, 0, 4_104 << 8] {
        assert_eq!(trap(&mut s, 7, pc), Err(Refusal::NoSite));
    }
    assert_eq!(schedule(&mut s, 5, 4_104), Ok(false));
    assert_eq!(s, before);
}

#[test]
fn stop_and_start() {
    let mut s = Session::worked();
    plant(&mut s, 1, &[], 4_104);
    assert_eq!(schedule(&mut s, 5, 0), Ok(false));
    assert_eq!(ask(&mut s, ten(12, 5, &[])), reply(13, &[]));
    assert_eq!(state(&mut s, 5, 4), Ok(()));
    assert!(s.stub.processes[0].wanted, "a state event keeps the mark");
    assert_eq!(start(&mut s, 5), None);
    assert_eq!((s.stub.processes[0].wanted, s.stub.processes[0].state), (false, 4));
    ask(&mut s, ten(12, 5, &[]));
    assert_eq!(schedule(&mut s, 5, 4_104), Ok(true));
    assert_eq!(s.registers[..136], block(0xcd, 4_104));
    let before = s.clone();
    assert_eq!(ask(&mut s, ten(12, 5, &[])), reply(13, &[]), "Stopped: unchanged");
    assert_eq!(s, before);
    assert_eq!(start(&mut s, 5), Some([8, 9]), "where a schedule event stopped it");
    assert_eq!(s.stub.processes[0].state, READY);
}

#[test]
fn start_changes_nothing_but_the_process() {
    let mut s = stopped();
    ask(&mut s, cond(b'n', 9));
    let mut wanted = s.clone();
    wanted.stub.processes[0].state = READY;
    assert_eq!(start(&mut s, 5), Some([8, 9]));
    assert_eq!(s, wanted);
    assert_eq!(s.memory[8..10], [0x02, 0x90]);
}

#[test]
fn start_goes_by_the_pc_as_it_stands() {
    let mut s = stopped();
    plant(&mut s, 2, &[], 4_110);
    trap(&mut s, 7, 4_110).unwrap();
    ask(&mut s, mput(132, &[0, 0, 0x10, 0x0e]));
    assert_eq!(start(&mut s, 5), Some([14, 15]), "the pc that was written");
    assert_eq!(s.stub.processes[1].state, STOPPED, "the other one stays Stopped");
    s.registers[268..].copy_from_slice(&4_104_u32.to_be_bytes());
    assert_eq!(start(&mut s, 7), Some([8, 9]), "the area that is lent");
    assert_eq!(start(&mut s, 7), None, "not Stopped any more");
    for pc in [0_u32, 4_102, 4_103, 4_105, 4_106, 4_104 << 8] {
        s.stub.processes[0].state = STOPPED;
        s.registers[132..136].copy_from_slice(&pc.to_be_bytes());
        assert_eq!(start(&mut s, 5), None, "beside the site, at {pc}");
    }
}

#[test]
fn a_breakpoint_stops_again_until_it_is_removed() {
    let mut s = stopped();
    for _ in 0..3 {
        assert_eq!(start(&mut s, 5), Some([8, 9]));
        assert_eq!(trap(&mut s, 5, 4_104), Ok(Verdict::Stop(1)));
    }
    ask(&mut s, mput(4_105, &[0xa1]));
    assert_eq!(start(&mut s, 5), Some([8, 0xa1]), "plain memory as it was written");
    assert_eq!(trap(&mut s, 5, 4_104), Ok(Verdict::Stop(1)));
    ask(&mut s, cond(b'd', 1));
    assert_eq!(start(&mut s, 5), None);
    assert_eq!(trap(&mut s, 5, 4_104), Err(Refusal::NoSite));
}

#[test]
fn a_stop_clears_and_a_pass_keeps_the_mark() {
    let mut s = Session::worked();
    plant(&mut s, 1, &[(b'k', 7), (b'a', 0)], 4_104);
    ask(&mut s, ten(12, 5, &[]));
    ask(&mut s, ten(12, 7, &[]));
    trap(&mut s, 5, 4_104).unwrap();
    trap(&mut s, 7, 4_104).unwrap();
    assert!(s.stub.processes[0].wanted && !s.stub.processes[1].wanted);
    assert_eq!(s.registers[136..], block(0xab, 4_104));
    assert_eq!(s.registers[..136], [0; 136]);
}

#[test]
fn restart_keeps_registers_and_other_states() {
    let mut s = stopped();
    ask(&mut s, cond(b'n', 9));
    ask(&mut s, ten(12, 7, &[]));
    state(&mut s, 7, 200).unwrap();
    let registers = s.registers.clone();
    restart(&mut s);
    assert_eq!(s.registers, registers);
    assert_eq!(s.memory, (0..64).collect::<Vec<u8>>());
    let states = [s.stub.processes[0].state, s.stub.processes[1].state];
    assert_eq!(states, [READY, 200]);
    assert!(!s.stub.processes[1].wanted);
    assert_eq!((s.stub.current, s.stub.draft.as_ref()), (None, None));
    refused(&mut s, mget(0, 1), Pid);
}

#[test]
fn replies_without_data() {
    let mut s = Session::worked();
    assert_eq!(ask(&mut s, ten(10, 7, &[])), reply(11, &[]));
    assert_eq!(ask(&mut s, ten(6, 7, &[])), reply(7, b"80002000"));
    for (value, text) in [(0, "Dead"), (2, "Ready"), (10, "a"), (16, "10"), (255, "ff")] {
        state(&mut s, 7, value).unwrap();
        assert_eq!(ask(&mut s, ten(8, 7, &[])), reply(9, text.as_bytes()));
    }
    assert_eq!(ask(&mut s, ten(8, 5, &[])), reply(9, b"Ready"));
    assert_eq!(s.stub.current, Some(7), "Tstatus leaves the current process");
}
