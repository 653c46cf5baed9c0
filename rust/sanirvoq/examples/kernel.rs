//! A small kernel in Rust with the debug stub in it: a debug session from the setup to the restart
//! and behind it, step by step. `examples/kernel.c` is the same in C and prints the same text, which
//! is kept in `examples/kernel.txt`.

use sanirvoq::{
    differences, frame_reply, Answer, FrameReader, Frames, Message, NotPlanned, Offered,
};
use sanirvoq::{PatchWrite, Process, Refusal, Run, Served, Setup, Stub, TextPacket, Verdict};
use sanirvoq::{BLOCK, FRAMED_REPLY, FRAME_BUFFER, MESSAGE, TEXT};
use std::error::Error;

const BASE: u32 = 0x1000;
const SIZE: u8 = 64;
const PROCESSES: [Process; 2] =
    [Process { pid: 5, address: 0x8000_1000 }, Process { pid: 7, address: 0x8000_2000 }];
const SITE: u32 = 0x1008;
/// Where the word of the laser's power limit is.
const LIMIT: u32 = 0x1038;
/// Where pc is in a block.
const PC: usize = BLOCK - 4;
/// The bytes of a trap.
const TRAP: u32 = 2;
/// A state byte.
const RUNNING: u8 = 4;

fn setup() -> Setup<'static> {
    let limit = u64::from(LIMIT);
    Setup::new(BASE, SIZE.into(), &PROCESSES).protecting(limit..limit + 4)
}

type Done = Result<(), Box<dyn Error>>;

struct Kernel {
    stub: Stub,
    memory: Vec<u8>,
    registers: Vec<u8>,
    reader: FrameReader,
    body: [u8; FRAME_BUFFER],
}

/// The kernel's side.
impl Kernel {
    fn set_up() -> Result<Self, Box<dyn Error>> {
        let memory: Vec<u8> = (0..SIZE).collect();
        let mut registers = vec![0; PROCESSES.len() * BLOCK];
        let mut body = [0; FRAME_BUFFER];
        let reader = Frames::new(&mut body)?.reader();
        let stub = Stub::setup(&setup(), &memory, &registers)?;
        for (block, Process { pid, .. }) in registers.chunks_exact_mut(BLOCK).zip(PROCESSES) {
            // A register has 0x100 times its number, plus the pid.
            for (word, number) in block.chunks_exact_mut(4).zip(0..32).skip(1) {
                word.copy_from_slice(&(0x100 * number + pid).to_be_bytes());
            }
        }
        Ok(Self { stub, memory, registers, reader, body })
    }

    /// A process's block of the register area. This kernel keeps the registers there while the
    /// process runs, too.
    fn block_of(&mut self, pid: u32) -> &mut [u8] {
        let start = if pid == PROCESSES[0].pid { 0 } else { BLOCK };
        &mut self.registers[start..start + BLOCK]
    }

    /// What a process has in its registers when it comes to a pc.
    fn come_to(&mut self, pid: u32, pc: u32) -> Vec<u8> {
        let mut block = self.block_of(pid).to_vec();
        block[PC..].copy_from_slice(&pc.to_be_bytes());
        block
    }

    /// Eight bytes of memory.
    fn at(&self, address: u32) -> &[u8] {
        let at = (address - BASE) as usize;
        &self.memory[at..at + 8]
    }

    fn show_memory_at(&self, address: u32) {
        line(&format!("memory at {address:#x}"), &hex(self.at(address)));
    }

    fn show_memory(&self) {
        self.show_memory_at(SITE);
    }

    /// A process comes to a pc where memory holds a trap.
    fn run_into_trap(&mut self, pid: u32, pc: u32) {
        let block = self.come_to(pid, pc);
        let text = match self.stub.trap(&mut self.memory, &mut self.registers, pid, &block) {
            Ok(Verdict::Stop(id)) => format!("Stop by breakpoint {id}"),
            Ok(Verdict::Pass(plain)) => {
                format!("Pass: the kernel runs {} elsewhere", hex(&plain))
            }
            Ok(other) => panic!("this kernel does not know {other:?}"),
            Err(refusal) => format!("refused with number {}", refusal.number()),
        };
        line(&format!("trap of {pid} at {pc:#x}"), &text);
    }

    fn about_to_run(&mut self, pid: u32) -> Done {
        let block = self.come_to(pid, BASE);
        let stops = self.stub.schedule(&mut self.memory, &mut self.registers, pid, &block)?;
        line(&format!("schedule of {pid}"), if stops { "yes: it stops" } else { "no: it runs" });
        Ok(())
    }

    /// A process goes on at a breakpoint, where memory holds the trap: the kernel runs the bytes
    /// under it elsewhere, with the registers of the process's block, and lets the process go on
    /// behind them.
    fn go_on(&mut self, pid: u32, plain: [u8; 2]) {
        let pc = &mut self.block_of(pid)[PC..];
        let behind = word(pc) + TRAP;
        pc.copy_from_slice(&behind.to_be_bytes());
        let text = format!("the kernel runs {} elsewhere, then on from {behind:#x}", hex(&plain));
        line(&format!("process {pid} goes on"), &text);
    }

    /// Hands a request to the stub and shows it and its reply, which is given.
    fn serve(
        &mut self,
        label: &str,
        request: [u8; MESSAGE],
    ) -> Result<[u8; MESSAGE], Box<dyn Error>> {
        let mut reply = [0; MESSAGE];
        let served =
            match self.stub.request(&mut self.memory, &mut self.registers, &request, &mut reply) {
                Ok(served) => served,
                Err(refusal) => {
                    let refused = format!("refused with number {}", refusal.number());
                    line(label, &format!("{} -> {refused}", hex(&request)));
                    return Err(refusal.into());
                }
            };
        let words = match Message::try_from(reply)? {
            Message::Rerr(_) | Message::Rproc(_) | Message::Rstatus(_) => {
                format!("  {}", text(&reply[1..]))
            }
            _ => String::new(),
        };
        line(label, &format!("{} -> {}{words}", hex(&request), hex(&reply)));
        match served {
            Served::Reply => {}
            Served::ReplyAndPass(plain) => self.go_on(word(&request[1..5]), plain),
            other => panic!("this kernel does not know {other:?}"),
        }
        Ok(reply)
    }

    /// Bytes came over the line.
    fn receive(&mut self, mut piece: &[u8]) -> Done {
        while !piece.is_empty() {
            let mut frames = Frames::from(self.reader, &mut self.body)?;
            let (rest, answer) = frames.feed(piece);
            (piece, self.reader) = (rest, frames.reader());
            match answer {
                Some(Answer::Packet { size, request: Some(sequence), .. }) => {
                    let request = frames.body(size).try_into()?;
                    let reply = self.serve("request in a packet", request)?;
                    let mut framed = [0; FRAMED_REPLY];
                    frame_reply(sequence.into(), &reply, &mut framed)?;
                    line("framed reply", &hex(&framed));
                }
                Some(Answer::BadBody { sequence, .. }) => {
                    let text = format!("sequence {sequence}: no reply, the host sends it again");
                    line("bad packet", &text);
                }
                _ => {}
            }
        }
        Ok(())
    }
}

/// Four bytes, high-order first.
fn word(bytes: &[u8]) -> u32 {
    bytes.iter().fold(0, |sum, &byte| sum << 8 | u32::from(byte))
}

fn hex(bytes: &[u8]) -> String {
    bytes.iter().map(|byte| format!("{byte:02x}")).collect::<Vec<_>>().join(" ")
}

/// Nine bytes of text, zero padded.
fn text(bytes: &[u8]) -> String {
    String::from_utf8_lossy(bytes).trim_end_matches('\0').to_owned()
}

fn line(label: &str, text: &str) {
    println!("  {label:<30} {text}");
}

/// The engineer's side.
impl Kernel {
    /// Sends a request, and shows it and its reply.
    fn ask(&mut self, message: Message) -> Done {
        self.serve(&message.to_string(), message.encode()?).map(drop)
    }

    fn get(&mut self, addr: u32, n: u8) -> Done {
        self.ask(Message::Tmget { addr, n })
    }

    fn put(&mut self, addr: u32, data: [u8; 4]) -> Done {
        self.ask(Message::Tmput { addr, n: 4, data })
    }

    fn condition(&mut self, letters: &[(u8, u32)]) -> Done {
        letters.iter().try_for_each(|&(op, val)| self.ask(Message::Tcondbreak { val, op }))
    }

    /// Sends a request of the text dialect, and shows it and its reply.
    fn ask_text(&mut self, letter: u8, third: u32, fourth: u32) -> Done {
        let (mut request, mut reply) = ([0; TEXT], [0; TEXT]);
        let request = TextPacket { pid: 0, letter, third, fourth }.encode(&mut request)?;
        let served = self.stub.text(&mut self.memory, &mut self.registers, request, &mut reply)?;
        let error = match served.reply() {
            Ok(_) => String::new(),
            Err(errno) => format!("  errno {}", errno.number()),
        };
        line("text", &format!("{} -> {}{error}", text(request), text(served.text())));
        Ok(())
    }

    fn set_breakpoints(&mut self) -> Done {
        println!("She sets breakpoint 4 at 0x1008 for process 7 only, and 9 at 0x100c for all.");
        self.condition(&[(b'n', 4), (b'k', 7), (b'a', 0), (b'b', SITE)])?;
        self.condition(&[(b'n', 9), (b'b', 0x100c)])?;
        self.show_memory();
        Ok(())
    }

    fn patch(&mut self) -> Done {
        println!("She writes across both traps. The traps stand, and she reads what she wrote.");
        self.put(0x1009, [0xaa, 0xbb, 0xcc, 0xdd])?;
        self.show_memory();
        self.get(SITE, 8)
    }

    fn stop_one(&mut self) -> Done {
        println!("Both processes come to 0x1008: 5 runs on over the new bytes, 7 stops.");
        self.run_into_trap(5, SITE);
        self.run_into_trap(7, SITE);
        println!("She changes register 10 of process 7 and starts it. Breakpoint 4 stands.");
        self.ask(Message::Tproc(7))?;
        self.get(0x28, 4)?;
        self.put(0x28, [0, 0, 0, 0x63])?;
        self.ask(Message::Tstart(7))?;
        self.show_memory();
        println!(
            "Process 7 comes to 0x1008 again and stops again, with the register that she changed."
        );
        self.run_into_trap(7, SITE);
        self.get(0x28, 4)?;
        println!("She removes breakpoint 4 and starts process 7, which now just goes on.");
        self.condition(&[(b'd', 4)])?;
        self.ask(Message::Tstart(7))?;
        self.show_memory();
        Ok(())
    }

    fn stop_other(&mut self) -> Done {
        println!("She wants process 5 stopped. It stops when the kernel is about to run it.");
        self.ask(Message::Tstop(5))?;
        self.about_to_run(7)?;
        self.about_to_run(5)?;
        self.ask(Message::Tstatus(5))?;
        println!("The kernel gives process 7 the state Running.");
        self.stub.state(&mut self.memory, &mut self.registers, 7, RUNNING)?;
        self.ask(Message::Tstatus(7))
    }

    fn speak_text(&mut self) -> Done {
        println!("Her bench debugger speaks text. Four bytes are one word, the lowest first.");
        self.ask_text(b'i', 0x1004, 0)?;
        println!(
            "It writes the word at 0x100c, under breakpoint 9. The answer is the word before."
        );
        self.ask_text(b'D', 0x100c, 0x0f0e_0dee)?;
        self.ask_text(b'd', 0x100c, 0)?;
        self.show_memory();
        println!("It asks for the pc: process 7 is current and runs, process 5 is stopped.");
        self.ask_text(b'r', 33, 0)?;
        self.ask(Message::Tproc(5))?;
        self.ask_text(b'r', 33, 0)?;
        self.ask_text(b'R', 10, 0x63)?;
        self.ask_text(b'r', 10, 0)
    }

    fn be_refused(&mut self) -> Done {
        println!("A write that leaves the window is refused; so is a trap of a stopped process.");
        self.put(0x103e, [1, 2, 3, 4])?;
        self.run_into_trap(5, SITE);
        Ok(())
    }

    fn keep_off_the_limit(&mut self) -> Done {
        println!(
            "The laser's power limit at 0x1038 is protected. She reads it, and cannot change it."
        );
        self.get(LIMIT, 4)?;
        self.put(0x1035, [0xff; 4])?;
        self.condition(&[(b'n', 6), (b'b', 0x103a)])?;
        self.ask_text(b'D', LIMIT, u32::MAX)?;
        self.ask_text(b'd', LIMIT, 0)
    }

    fn speak_in_frames(&mut self) -> Done {
        println!(
            "The line is noisy. A packet comes with a wrong bit, then whole and in two pieces."
        );
        // Requests are framed as replies are.
        let mut packet = [0; FRAMED_REPLY];
        frame_reply(7, &Message::Tmget { addr: SITE, n: 8 }.encode()?, &mut packet)?;
        packet[15] ^= 4;
        self.receive(&packet)?;
        packet[15] ^= 4;
        let (first, second) = packet.split_at(11);
        self.receive(first)?;
        self.receive(second)
    }

    fn restart(&mut self) -> Done {
        let mut reply = [0; MESSAGE];
        println!("The kernel begins the session anew. The last trap goes, what she wrote stays.");
        self.show_memory();
        self.stub.restart(&mut self.memory, &mut self.registers, &mut reply)?;
        line("restart", &format!("{}  {}", hex(&reply), text(&reply[1..])));
        self.show_memory();
        Ok(())
    }

    fn compare(&self) -> Done {
        let image: Vec<u8> = (0..SIZE).collect();
        let mut list = [Run::default(); SIZE as usize / 2];
        println!("She compares the window with the image that was loaded.");
        for run in differences(&image, &self.memory, &mut list)? {
            line(&format!("differs at {:#x}", BASE + run.start), &format!("{} bytes", run.length));
        }
        Ok(())
    }

    /// The fewest writes to a wanted image, checked and then sent.
    fn plan_a_patch(&mut self) -> Done {
        println!(
            "She plans the fewest writes for six new bytes at 0x1020. They are accepted, and sent."
        );
        let (mut wanted, mut room) = (self.memory.clone(), [0; SIZE as usize]);
        wanted[0x20..0x26].copy_from_slice(&[0xf0, 0xf1, 0xf2, 0xf3, 0xf4, 0xf5]);
        let (memory, registers) = (&self.memory, &self.registers);
        let mut list = [PatchWrite::default(); 4];
        let plan = self.stub.plan_patch(memory, registers, &wanted, &mut room, &mut list)?;
        let verdict = self.stub.check_patch(memory, registers, plan, &wanted, &mut room)?;
        let accepted = if verdict == Offered::Accepted { "accepted" } else { "not accepted" };
        line("plan", &format!("{} writes, {accepted}", plan.len()));
        for &mut PatchWrite { address, count, bytes } in plan {
            let put = Message::Tmput { addr: address, n: count.try_into()?, data: bytes };
            self.serve("Tmput of the plan", put.encode()?)?;
        }
        self.show_memory_at(0x1020);
        println!("For another power limit there is no plan.");
        wanted[(LIMIT - BASE) as usize] = 0xff;
        let (memory, registers) = (&self.memory, &self.registers);
        let refused = self.stub.plan_patch(memory, registers, &wanted, &mut room, &mut list);
        if let Err(NotPlanned::Protected { address }) = refused {
            line("plan", &format!("refused with number 21 at {address:#x}"));
        }
        Ok(())
    }

    /// A trap is overwritten from outside: number 3, and the record is given up.
    fn lose_a_trap(&mut self) -> Done {
        println!(
            "Breakpoints 1 and 2 stand at 0x1010 and 0x1014. A loader overwrites the first trap."
        );
        self.condition(&[(b'n', 1), (b'b', 0x1010), (b'n', 2), (b'b', 0x1014)])?;
        self.memory[0x10..0x12].copy_from_slice(&[0xf0, 0xf1]);
        self.show_memory_at(0x1010);
        let refused = self.get(0x1010, 8).unwrap_err();
        assert_eq!(refused.downcast_ref(), Some(&Refusal::Unfit));
        println!("The kernel puts back what lies under the other trap, and sets up anew.");
        let left_out = self.stub.put_back(&mut self.memory, BASE);
        line("put back", &format!("{left_out} breakpoint left out"));
        self.stub.setup_in_place(&setup(), &self.memory, &self.registers)?;
        self.get(0x1010, 8)
    }
}

fn main() -> Done {
    let mut kernel = Kernel::set_up()?;
    println!("The kernel has processes 5 and 7 and lends 64 bytes at 0x1000; byte i is i.");
    kernel.show_memory();
    println!("The engineer reads four bytes.");
    kernel.get(0x1004, 4)?;
    kernel.set_breakpoints()?;
    kernel.patch()?;
    kernel.stop_one()?;
    kernel.stop_other()?;
    kernel.speak_text()?;
    kernel.be_refused()?;
    kernel.keep_off_the_limit()?;
    kernel.speak_in_frames()?;
    kernel.restart()?;
    kernel.compare()?;
    kernel.plan_a_patch()?;
    kernel.lose_a_trap()?;
    assert_eq!(kernel.at(SITE), [0x08, 0xaa, 0xbb, 0xcc, 0xee, 0x0d, 0x0e, 0x0f]);
    Ok(())
}
