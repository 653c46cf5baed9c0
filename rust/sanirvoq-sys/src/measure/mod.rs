//! What the benchmark measures by, with the feature `measure`: processor time, the stack of a step, and
//! the reads of the archive `libbench_read.a`. Every function is safe for whatever it is given.

#[cfg(not(all(target_os = "linux", target_arch = "x86_64", target_pointer_width = "64")))]
compile_error!("the feature measure is for Linux on x86-64");

pub mod read;
pub mod stack;
pub mod time;
