//! Reads of nine bytes by themselves, beside eight breakpoints: the read of the proved stub, the
//! same byte by byte, the Rust stub's, and a copy that knows of no site.

use crate::cases::{apart, clear, standing, together};
use crate::side::{protected, BASE, PROCESSES};
use crate::worker::Worker;
use bench_stub::{Stub, BLOCK, ENTRIES, MESSAGE};
use sanirvoq_sys::measure::read::{self, Plain, Sites, BYTES, FREE, ROOM};
use std::hint::black_box;

const WINDOW: u32 = 64;
/// The way of the proved stub, as labels end with it.
pub const STRAIGHT: &str = "straight";
/// A way of the archive: a part of the window, the slots, the part's offset, and where the bytes go.
type Read = fn(&[u8], &Sites, &Plain, u32, &mut [u8]);

#[inline(never)]
fn rust_stub(stub: &Stub, memory: &[u8], address: u32, out: &mut [u8]) -> Option<()> {
    stub.read_plain(memory, address, out)
}

/// The bytes as they stand in memory, traps and all.
#[inline(never)]
fn copied(memory: &[u8], base: u32, address: u32, out: &mut [u8; BYTES]) -> Option<()> {
    let start = address.checked_sub(base)? as usize;
    *out = *memory.get(start..)?.first_chunk()?;
    Some(())
}

/// Eight breakpoints, and the address that is read.
struct Scene {
    name: &'static str,
    stub: Stub,
    memory: Vec<u8>,
    sites: Sites,
    plain: Plain,
    address: u32,
}

impl Scene {
    /// The table as the Rust stub makes it; the slots are taken from it.
    fn new(name: &'static str, sites_of: fn(u32, u32) -> u32, address: u32) -> Self {
        let mut memory: Vec<u8> = (0..WINDOW).map(|i| i as u8).collect();
        let (mut registers, mut reply) = (vec![0; PROCESSES.len() * BLOCK], [0; MESSAGE]);
        let mut stub = Stub::default();
        let done = stub.setup(BASE, WINDOW, protected(WINDOW), &PROCESSES, &memory, &registers);
        done.expect("a setup");
        for request in standing(ENTRIES as u32, WINDOW, sites_of) {
            stub.request(&mut memory, &mut registers, &request, &mut reply).expect("a request");
        }
        let (mut sites, mut plain) = ([FREE; ENTRIES], [0; ROOM * ENTRIES]);
        for (k, entry) in stub.entries.iter().enumerate() {
            assert!(entry.used, "eight breakpoints");
            sites[k] = entry.site - BASE;
            plain[ROOM * k..ROOM * k + 2].copy_from_slice(&entry.plain);
        }
        Self { name, stub, memory, sites, plain, address }
    }

    fn by(&self, read: Read, out: &mut [u8]) {
        let at = (self.address - BASE) as usize;
        let part = black_box(&self.memory[at..at + BYTES]);
        read(part, &self.sites, &self.plain, black_box(at as u32), out);
    }

    /// Each way of reading, as so many turns. A copy is none where the stretch meets a site.
    fn workers(&self) -> Vec<Worker<'_>> {
        let mut list = vec![
            self.worker(STRAIGHT, |scene, out| scene.by(read::straight, out)),
            self.worker("byte by byte", |scene, out| scene.by(read::by_bytes, out)),
            self.worker("Rust stub", |scene, out| {
                let done = rust_stub(&scene.stub, &scene.memory, black_box(scene.address), out);
                done.expect("in the window")
            }),
        ];
        if self.name == "no site" {
            list.push(self.worker("memcpy", |scene, out| {
                let done = copied(&scene.memory, scene.stub.base, black_box(scene.address), out);
                done.expect("in the window")
            }));
        }
        list
    }

    /// Checks that a way reads the plain bytes, here the offsets, and gives it as turns.
    fn worker<'a>(
        &'a self,
        way: &'static str,
        read: impl Fn(&Self, &mut [u8; BYTES]) + 'a,
    ) -> Worker<'a> {
        let mut out = [0; BYTES];
        read(self, &mut out);
        let expected: [u8; BYTES] = std::array::from_fn(|i| (self.address - BASE) as u8 + i as u8);
        assert_eq!(out, expected, "{}, {way}", self.name);
        let turns = move |turns| {
            for _ in 0..turns {
                read(black_box(self), black_box(&mut out));
            }
        };
        Worker { label: format!("read 9, {}, {way}", self.name), turns: Box::new(turns) }
    }
}

/// The scenes of the table below: eight breakpoints elsewhere, and five of them under the bytes.
pub struct Reads([Scene; 2]);

impl Reads {
    pub fn new() -> Self {
        let across = together(WINDOW, 0) + 1;
        Self([
            Scene::new("no site", apart, clear(WINDOW)),
            Scene::new("across five sites", together, across),
        ])
    }

    pub fn workers(&self) -> Vec<Worker<'_>> {
        self.0.iter().flat_map(Scene::workers).collect()
    }
}

#[cfg(test)]
mod tests {
    use super::*;

    #[test]
    fn a_copy_outside_the_window_is_refused() {
        let mut out = [0; BYTES];
        assert_eq!(copied(&[7; 12], 100, 103, &mut out), Some(()));
        assert_eq!(out, [7; BYTES]);
        for address in [0, 99, 104, 112, u32::MAX] {
            assert_eq!(copied(&[7; 12], 100, address, &mut out), None, "{address}");
        }
    }

    #[test]
    fn every_way_is_there_once() {
        let reads = Reads::new();
        let labels: Vec<String> = reads.workers().into_iter().map(|worker| worker.label).collect();
        assert_eq!(labels.len(), 7, "{labels:?}");
        assert!(labels.iter().all(|label| labels.iter().filter(|l| *l == label).count() == 1));
    }
}
