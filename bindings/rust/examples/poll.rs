//! A host brings a unit online and sends a READ of three blocks, which it polls until it has ended:
//!
//!     cargo run --example poll
//!     cargo run --example poll -- STATE
//!
//! With a file STATE both ends, the controller and the host, are saved to it after the first block; run again, this goes on
//! from there.

use std::error::Error;
use std::fs;
use std::path::Path;

use mscp::{Connection::First, Controller, Host, Limits, News, Opcode, Picker, Poll, Unit};

struct Ends {
    controller: Controller,
    host: Host,
}

impl Ends {
    fn new() -> Result<Self, mscp::Error> {
        let unit = Unit { id: 1, number: 0, size: 64, media: 0, serial: 1, track: 4, group: 2, cylinder: 1 };
        let limits = Limits { id: 1, budget: 16, credits: 4, second: 0, longest: 8, timeout: 60 };
        Ok(Self { controller: Controller::new(&limits, &[unit], Picker::Sweep)?, host: Host::new(4)? })
    }

    fn submit(&mut self, reference: u32, opcode: Opcode, bytes: u32, block: u32) -> Result<(), mscp::Error> {
        let words = [reference, 0, opcode.number().into(), bytes, 0, 0, 0, block];
        let message = words.map(u32::to_le_bytes).concat();
        self.host.submit(&message)?;
        self.controller.send(First, &message).map(drop)
    }

    /// The host hears of the controller's oldest end.
    fn hear(&mut self) -> Result<(), Box<dyn Error>> {
        let end = self.controller.take(First).ok_or("no end is there")?;
        match self.host.receive(&end).map_err(mscp::Error::text)? {
            News::Ended { reference, status, moved, .. } => {
                println!("ended: {reference}, status {status:04X}, {moved} bytes");
            }
            News::First(figure) => println!("at most {figure} steps more: the first figure of the polled command"),
            News::Progress(figure) => println!("at most {figure} steps more: the figure has fallen"),
            other => return Err(format!("{other:?}").into()),
        }
        Ok(())
    }

    fn poll(&mut self, reference: u32) -> Result<(), Box<dyn Error>> {
        let message = match self.host.poll(reference).map_err(mscp::Error::text)? {
            Poll::Send(message) => message,
            Poll::Busy | Poll::Nothing => return Err("nothing is to be polled".into()),
        };
        self.controller.send(First, &message).map_err(mscp::Error::text)?;
        self.hear()
    }

    /// Serves a block; whether its command has ended.
    fn step(&mut self) -> Result<bool, Box<dyn Error>> {
        let report = self.controller.step(0).map_err(mscp::Error::text)?.ok_or("no command waits")?;
        if report.ended.is_some() {
            self.hear()?;
        }
        Ok(report.ended.is_some())
    }

    fn begin(&mut self) -> Result<(), Box<dyn Error>> {
        self.submit(1, Opcode::Online, 0, 0).map_err(mscp::Error::text)?;
        self.step()?;
        self.submit(2, Opcode::Read, 3 * 512, 40).map_err(mscp::Error::text)?;
        self.poll(100)
    }

    /// Both ends, the first after its length.
    fn save(&self) -> Vec<u8> {
        let (first, second) = (self.controller.save(), self.host.save());
        [&(first.len() as u32).to_le_bytes(), &*first, &*second].concat()
    }

    fn restore(bytes: &[u8]) -> Option<Self> {
        let (length, rest) = (bytes.get(..4)?, &bytes[4..]);
        let length = u32::from_le_bytes(length.try_into().ok()?) as usize;
        let (first, second) = (rest.get(..length)?, &rest[length..]);
        Some(Self { controller: Controller::restore(first).ok()?, host: Host::restore(second).ok()? })
    }
}

fn main() -> Result<(), Box<dyn Error>> {
    let state = std::env::args_os().nth(1);
    let saved = state.as_ref().map(Path::new).filter(|it| it.exists());
    let mut ends = match saved {
        Some(path) => Ends::restore(&fs::read(path)?).ok_or("nothing was saved there")?,
        None => Ends::new().map_err(mscp::Error::text)?,
    };
    if saved.is_none() {
        ends.begin()?;
    }
    while !ends.step()? {
        ends.poll(101)?;
        if let (Some(path), None) = (&state, saved) {
            return Ok(fs::write(path, ends.save())?);
        }
    }
    Ok(())
}
