//! Records of any bytes: what is held of them, what they show, and the numbers that they give.

use compare::archive::archive;
use compare::independent::Held;
use compare::make::sorts::SORTS;
use compare::make::Maker;
use compare::op::{Op, Origin};
use compare::pair::Pair;
use compare::raw::{held, shows, written};
use compare::record::Record;

/// A session that has come to something: its record, as the archive left it, and its buffers.
fn sessions(seed: u64, visit: &mut dyn FnMut(&Pair, &mut Maker)) {
    let mut maker = Maker::new(seed);
    for _ in 0..12 {
        let mut pair = Pair::new(archive);
        let mut ops = Vec::new();
        maker.opening(pair.record(), None, &mut ops);
        for _ in 0..8 {
            for op in ops.drain(..) {
                pair.run(&op).unwrap();
            }
            maker.build_up(pair.scene().unwrap(), &mut ops);
        }
        visit(&pair, &mut maker);
    }
}

/// Turning any one bit changes what the record shows just where it changes what is held of it.
#[test]
fn a_record_shows_what_is_held_of_it() {
    sessions(1, &mut |pair, _| {
        let scene = pair.scene().unwrap();
        assert_eq!(held(scene.record.raw()).as_ref(), Some(scene.stub));
        let mut turned = pair.record().clone();
        for bit in 0..8 * turned.bytes().len() {
            turned.bytes_mut()[bit / 8] ^= 1 << (bit % 8);
            let same = held(turned.raw()).as_ref() == Some(scene.stub);
            assert_eq!(shows(turned.raw(), scene.stub), same, "bit {bit}");
            turned.bytes_mut()[bit / 8] ^= 1 << (bit % 8);
        }
    });
}

/// Every sort of damage comes up, changes the record or its buffers, and is undone.
#[test]
fn damage_is_of_its_sort_and_is_undone() {
    let mut seen = [0; SORTS.len()];
    for seed in 0..80 {
        sessions(seed, &mut |pair, maker| {
            let scene = pair.scene().unwrap();
            let (record, memory) = (scene.record.clone(), scene.memory.to_vec());
            let mut ops = Vec::new();
            maker.damage(pair.scene().unwrap(), &mut ops);
            let Some(Op::Record(last, Origin::Restored)) = ops.last() else { panic!() };
            assert_eq!(**last, record);
            let mut now = memory.clone();
            for op in &ops {
                match op {
                    Op::Memory(bytes) => now.clone_from(bytes),
                    Op::Record(_, Origin::Damaged(sort)) => seen[*sort] += 1,
                    _ => {}
                }
            }
            assert_eq!(now, memory);
        });
    }
    let missing = SORTS.iter().zip(seen).filter(|(_, count)| *count == 0);
    let missing: Vec<_> = missing.map(|(sort, _)| sort.name).collect();
    assert!(missing.is_empty(), "{missing:?}");
}

/// The sizes are those of the record's own M and count, computed wide, before all else.
#[test]
fn sizes_come_first() {
    let mut record = Record::zeroed();
    let number = |record: &Record, memory: usize, registers: usize| {
        Held::new(record).number(&vec![0; memory], &vec![0; registers])
    };
    assert_eq!(number(&record, 0, 0), 3, "the empty record");
    assert_eq!((number(&record, 4, 0), number(&record, 0, 136)), (2, 2));
    record.target_mut().count = 1 << 29;
    assert_eq!(number(&record, 0, 0), 2, "136 times 2^29 is 0 in 32 bits");
    record.target_mut().count = 5;
    assert_eq!((number(&record, 0, 5 * 136), number(&record, 0, 4 * 136)), (3, 2));
    let target = record.target_mut();
    (target.base, target.size, target.count, target.processes[0].pid) = (4_096, 4, 1, 9);
    assert_eq!((number(&record, 4, 136), number(&record, 3, 136)), (0, 2));
    record.target_mut().selected = 2;
    assert_eq!((number(&record, 4, 136), number(&record, 3, 136)), (3, 2));
}

/// What is written for a stub is held as that stub again.
#[test]
fn a_record_is_written_for_what_is_held() {
    sessions(3, &mut |pair, _| {
        let stub = pair.scene().unwrap().stub;
        let record = written(stub);
        assert_eq!(held(record.raw()).as_ref(), Some(stub));
        assert!(shows(record.raw(), stub));
    });
}
