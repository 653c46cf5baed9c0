//! `bench_frames` prints the time a byte of the line takes in the proved reader and in the independent
//! one, for bodies of several lengths, and the size of the reader.

#![forbid(unsafe_code)]

use reference::frame::{frame, FrameReader};
use sanirvoq::{call, ffi, FRAME_BUFFER};
use std::hint::black_box;
use std::time::Instant;

const ROUNDS: usize = 60;

fn proved(line: &[u8], buffer: &mut [u8]) -> usize {
    let (mut reader, mut at, mut packets) = (call::frame_reader(), 0, 0);
    while at < line.len() {
        let fed = call::frame_feed(reader, &line[at..], buffer);
        reader = fed.reader;
        at += fed.taken as usize;
        packets += usize::from(fed.answer.kind == 1);
    }
    packets
}

fn independent(line: &[u8], buffer: &mut [u8]) -> usize {
    let (mut reader, mut at, mut packets) = (FrameReader::new(), 0, 0);
    while at < line.len() {
        let (taken, answer) = reader.feed(&line[at..], buffer).expect("a buffer");
        at += taken;
        packets += usize::from(answer.is_some());
    }
    packets
}

/// The shortest of some rounds, in nanoseconds a byte.
fn best(line: &[u8], packets: usize, side: fn(&[u8], &mut [u8]) -> usize) -> f64 {
    let mut buffer = [0; FRAME_BUFFER];
    let mut shortest = f64::MAX;
    for _ in 0..ROUNDS {
        let start = Instant::now();
        assert_eq!(side(black_box(line), &mut buffer), packets);
        shortest = shortest.min(start.elapsed().as_secs_f64());
    }
    shortest * 1e9 / line.len() as f64
}

fn main() {
    for length in [0, 1, 10, 100, 532] {
        let count = 400_000 / (12 + length);
        let body = |k: usize| (0..length).map(|i| (i * 7 + k * 13) as u8).collect::<Vec<_>>();
        let line: Vec<u8> =
            (0..count).flat_map(|k| frame(0x8000 + k as u32 % 256, &body(k))).collect();
        let ours = best(&line, count, proved);
        let theirs = best(&line, count, independent);
        println!(
            "body of {length}: {ours:.2} ns a byte, {theirs:.2} in Rust, ratio {:.2}",
            ours / theirs
        );
    }
    println!("reader: {} bytes", size_of::<ffi::FrameReader>());
}
