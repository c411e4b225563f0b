//! A machine with memory, a clock, and a disk port over an image. Its firmware boots block 0 of unit 0:
//!
//!     cargo run --example toy -- IMAGE
//!
//! The first part is the machine, as an emulator has one, and the second is the firmware.

use std::fs::File;
use std::io::{Read, Seek, SeekFrom, Write};
use std::process::exit;

use mscp::{BadBlock, Bus, BusFault, Error, Hardware, Limits, Medium, Opcode, Picker, Port, Unit, BLOCK};

const INSTRUCTIONS_A_TURN: u64 = 200;
const INSTRUCTIONS_A_SECOND: u64 = 1_000_000;

/// What the port wants of the machine.
struct Board {
    memory: Vec<u8>,
    image: File,
}

impl Board {
    fn part(&mut self, address: u32, count: usize) -> Result<&mut [u8], BusFault> {
        self.memory.get_mut(address as usize..).and_then(|it| it.get_mut(..count)).ok_or(BusFault::Missing)
    }

    fn seek(&mut self, block: u32) -> std::io::Result<u64> {
        self.image.seek(SeekFrom::Start(u64::from(block) * BLOCK as u64))
    }
}

impl Bus for Board {
    fn read(&mut self, address: u32, bytes: &mut [u8]) -> Result<(), BusFault> {
        bytes.copy_from_slice(self.part(address, bytes.len())?);
        Ok(())
    }

    fn write(&mut self, address: u32, bytes: &[u8]) -> Result<(), BusFault> {
        self.part(address, bytes.len())?.copy_from_slice(bytes);
        Ok(())
    }

    fn interrupt(&mut self, vector: u16) {
        println!("an interrupt by vector {vector:o}"); // the firmware of this machine wants none
    }

    fn read_block(&mut self, _unit: u16, block: u32, bytes: &mut [u8; BLOCK]) -> Result<(), BadBlock> {
        self.seek(block).and_then(|_| self.image.read_exact(bytes)).map_err(|_| BadBlock::DRIVE_ERROR)
    }

    fn write_block(&mut self, _unit: u16, block: u32, bytes: &[u8; BLOCK]) -> Result<(), BadBlock> {
        self.seek(block).and_then(|_| self.image.write_all(bytes)).map_err(|_| BadBlock::DRIVE_ERROR)
    }
}

struct Machine {
    board: Board,
    port: Port,
    instructions: u64,
}

impl Machine {
    /// One with an RQDX3, and the image in its unit 0.
    fn new(mut image: File) -> Result<Self, Box<dyn std::error::Error>> {
        let blocks = u32::try_from(image.seek(SeekFrom::End(0))? / BLOCK as u64)?;
        let limits =
            Limits { id: 1 << 56 | 19 << 48, budget: 512, credits: 17, second: 0, longest: 65536, timeout: 120 };
        let rd54 = Unit {
            id: 2 << 56 | 13 << 48,
            number: 0,
            size: blocks,
            media: 0x2564_4036,
            serial: 1,
            track: 17,
            group: 15,
            cylinder: 1,
        };
        let mut port = Port::new(&limits, &[rd54], Picker::Sweep, Hardware::RQDX3, 16).map_err(Error::text)?;
        let medium = Medium { size: blocks, media: rd54.media, ..Medium::default() };
        port.volume_came(0, &medium).map_err(Error::text)?;
        Ok(Self { board: Board { memory: vec![0; 1 << 16], image }, port, instructions: 0 })
    }

    /// It goes on by an instruction.
    fn go_on(&mut self) {
        self.instructions += 1;
        if self.instructions % INSTRUCTIONS_A_TURN == 0 {
            self.port.turn(&mut self.board, 1000);
        }
        if self.instructions % INSTRUCTIONS_A_SECOND == 0 {
            self.port.tick();
        }
    }
}

// ---- the firmware: rings of one slot each, and one command at a time

const RESPONSE: usize = 0x0E04;
const COMMAND: usize = 0x0E44;
const RINGS: usize = 0x0E84;
const BUFFER: usize = 0;

impl Machine {
    fn put(&mut self, address: usize, word: u32) {
        self.board.memory[address..address + 4].copy_from_slice(&word.to_le_bytes());
    }

    fn get(&self, address: usize) -> u32 {
        u32::from_le_bytes([0, 1, 2, 3].map(|i| self.board.memory[address + i]))
    }

    /// Waits for a step of the initialisation, and answers it. The top bit would say that the port had a fatal error.
    fn step(&mut self, number: u32, answer: u16) -> bool {
        let bit = 0x0400_u16 << number;
        for _ in 0..10_000 {
            if self.port.read_sa() & (bit | 0x8000) != 0 {
                break;
            }
            self.go_on();
        }
        let shown = self.port.read_sa();
        println!("step {number}: SA is {shown:04x}");
        self.port.write_sa(answer);
        shown & 0xF800 == bit
    }

    fn initialise(&mut self) -> bool {
        self.port.write_ip();
        self.step(1, 0x8000) && self.step(2, RINGS as u16) && self.step(3, 0) && self.step(4, 1)
    }

    /// Sends a command of unit 0, and waits for its end. Whether it is Success.
    fn command(&mut self, opcode: Opcode, bytes: u32, block: u32) -> bool {
        let opcode = u32::from(opcode.number());
        let words = [32, 0, 0, opcode, bytes, BUFFER as u32, 0, 0, block]; // after the length: type and connection are 0
        words.iter().enumerate().for_each(|(i, word)| self.put(COMMAND - 4 + 4 * i, *word));
        self.put(RINGS, 0x8000_0000 | RESPONSE as u32); // both slots are the port's now
        self.put(RINGS + 4, 0x8000_0000 | COMMAND as u32);
        self.port.read_ip();
        for _ in 0..100_000 {
            if self.get(RINGS) < 0x8000_0000 {
                return self.get(RESPONSE + 8) == 0x80 | opcode; // the endcode, and after it a status of 0
            }
            self.go_on();
        }
        false
    }

    fn boot(&mut self) -> bool {
        if !self.initialise() || !self.command(Opcode::Online, 0, 0) {
            return false;
        }
        println!("unit 0 is online: {} blocks", self.get(RESPONSE + 36));
        if !self.command(Opcode::Read, BLOCK as u32, 0) {
            return false;
        }
        let text = self.board.memory[BUFFER..BUFFER + BLOCK].split(|byte| *byte == 0).next().unwrap_or(&[]);
        print!("booted: {}", String::from_utf8_lossy(text)); // this machine's programs are texts
        true
    }
}

fn main() {
    let image = std::env::args_os().nth(1).and_then(|it| File::options().read(true).write(true).open(it).ok());
    let mut machine = image.and_then(|it| Machine::new(it).ok()).unwrap_or_else(|| {
        eprintln!("usage: toy IMAGE (of blocks of 512 bytes)");
        exit(2)
    });
    if !machine.boot() {
        println!("no boot: SA is {:04x}, status {:04x}", machine.port.read_sa(), machine.get(RESPONSE + 10) & 0xFFFF);
        exit(1);
    }
}
