//! Where the sides differ, a long list becomes a short one that still shows it.

use compare::archive::{archive, Lent, Stub};
use compare::op::{Call, Kind, Op, Origin};
use compare::record::Record;
use compare::run::Runner;
use compare::shrink::{replay, shrink};

fn step(kind: Kind, input: &[u8]) -> Op {
    let reply = kind.reply().unwrap_or(0);
    let input = input.to_vec();
    let (memory, registers, damage) = (None, None, None);
    let (protected, pid, value, fill) = (4_096..4_096, 5, 3, 0);
    Op::Step(Call { kind, protected, pid, value, input, reply, fill, memory, registers, damage })
}

fn request(kind: u8, number: u32, one: u8) -> Op {
    let [a, b, c, d] = number.to_be_bytes();
    step(Kind::Request, &[kind, a, b, c, d, one, 0, 0, 0, 0])
}

/// Buffers, record and setup of a window of 64 bytes at 4,096 and process 5.
fn opening() -> Vec<Op> {
    let mut record = Box::new(Record::zeroed());
    let target = record.target_mut();
    (target.base, target.size, target.count, target.processes[0].pid) = (4_096, 64, 1, 5);
    vec![
        Op::Memory((0..64).collect()),
        Op::Registers(vec![0; 136]),
        Op::Record(record, Origin::Setup(None)),
        step(Kind::Setup, &[]),
    ]
}

/// Alters the answer to Tmget while two breakpoints stand or more.
fn faulty(call: &Call, lent: &mut Lent<'_>) -> u32 {
    let result = archive(call, lent);
    let standing = lent.record.target().table.entries.iter().filter(|entry| entry.used == 1);
    if call.kind == Kind::Request && standing.count() >= 2 && lent.reply.first() == Some(&3) {
        lent.reply[1] ^= 0x40;
    }
    result
}

fn texts(ops: &[Op]) -> Vec<String> {
    ops.iter().map(Op::to_string).collect()
}

#[test]
fn only_what_is_needed_is_left() {
    let mut ops = opening();
    ops.extend([
        request(2, 4_096, 1),
        request(16, 1, b'n'),
        Op::Outside { at: 3, byte: 9 },
        request(16, 4_100, b'b'),
        step(Kind::State, &[]),
        request(2, 4_100, 1),
        request(16, 2, b'n'),
        request(6, 5, 0),
        request(16, 4_104, b'b'),
        step(Kind::Restart, &[]),
        request(16, 1, b'n'),
        request(16, 4_100, b'b'),
        request(16, 2, b'n'),
        request(4, 4_100, 0),
        request(16, 4_110, b'b'),
        request(2, 4_096, 2),
        request(2, 4_100, 4),
        step(Kind::State, &[]),
    ]);
    let (length, found) = replay(faulty, &ops).unwrap();
    assert_eq!((length, found.what.as_str()), (ops.len() - 2, "the reply differs"));
    let (short, found) = shrink(faulty, ops).unwrap();
    // A record of zeros but for B, M and a process is as good as a setup.
    let mut wanted = opening();
    wanted.pop();
    wanted.extend([
        request(16, 1, b'n'),
        request(16, 4_100, b'b'),
        request(16, 2, b'n'),
        request(16, 4_110, b'b'),
        request(2, 4_096, 2),
    ]);
    assert_eq!(texts(&short), texts(&wanted));
    assert_eq!(found.what, "the reply differs");
    assert!(found.proved[0].contains("reply 034001"), "{found}");
    assert!(found.independent[0].contains("reply 030001"), "{found}");
}

#[test]
fn a_list_that_does_not_fail_is_left_alone() {
    let mut ops = opening();
    ops.push(request(2, 4_096, 1));
    assert!(shrink(faulty, ops).is_none());
}

/// A fault in the middle of a random run comes back as a list that begins with nothing, fails at
/// its last op, and fails no more without any one of its ops.
#[test]
fn random_runs_shrink() {
    for seed in 1..4 {
        let failure = Runner::new(faulty, seed, 100_000).run(|_| {}).unwrap_err();
        let what = &failure.difference.what;
        let (length, found) = replay(faulty, &failure.ops).unwrap();
        assert_eq!((length, &found), (failure.ops.len(), &failure.difference));
        assert_eq!(what, "the reply differs");
        for i in 0..failure.ops.len() {
            let mut less = failure.ops.clone();
            less.remove(i);
            assert!(replay(faulty, &less).is_none_or(|(_, found)| found.what != *what));
        }
        assert!(failure.to_string().contains("the reply differs\n  proved "));
    }
}

/// Two ways to fail: the short list shows the one that was found, not the other.
#[test]
fn it_stays_the_same_difference() {
    let two: Stub = |call, lent| {
        let result = faulty(call, lent);
        if call.kind == Kind::State && result == 2 {
            return 3;
        }
        result
    };
    let mut ops = opening();
    ops.extend([request(16, 1, b'n'), request(16, 4_100, b'b'), step(Kind::State, &[])]);
    ops.extend([request(16, 2, b'n'), request(16, 4_104, b'b'), request(2, 4_096, 1)]);
    let (short, found) = shrink(two, ops).unwrap();
    assert_eq!((short.len(), found.what.as_str()), (8, "the reply differs"));
}
