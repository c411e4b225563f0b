//! Runs scripts. The lines are those of one connection, without `packet` and `second`. A line of an event that is
//! written in the usual way, its words one space apart, is read where it stands; any other is left to `words`.

use crate::queue::Queue;
use crate::report::Report;
use crate::slot::*;
use crate::text;
use crate::words::{Cause, Event, Header, Words};

const SIZE: usize = 16 << 20;
const LINES: usize = 1_000_000;
const EVENTS: u32 = 1_000_000;

/// A line, and what is wrong with it.
pub type Fault = (usize, Cause);

/// The first bytes of a line as a number.
const fn word(text: &[u8]) -> u64 {
    let (mut word, mut at) = (0, 0);
    while at < text.len() {
        word |= (text[at] as u64) << (8 * at);
        at += 1;
    }
    word
}

const TAKE: u64 = word(b"take\n");
const STEP: u64 = word(b"step ");
const LOOK: u64 = word(b"look\n");
const READS: u64 = word(b"read ");
const WRITES: u64 = word(b"write ");
const ERASES: u64 = word(b"erase ");
const ABORTS: u64 = word(b"abort ");
const ACCESSES: u64 = word(b"access ");
const POLLS: u64 = word(b"status ");
const ONLINES: u64 = word(b"online ");
const COMPARES: u64 = word(b"compare ");
const SET_UNITS: u64 = word(b"setunit ");

/// The text from a line's first byte on, more than an event takes in the usual way.
struct Text<'a> {
    bytes: &'a [u8; 72],
    at: usize,
}

impl Text<'_> {
    #[inline]
    fn eight(&self) -> u64 {
        let at = self.at & 63; // it stays below: the compiler doesn't know
        u64::from_le_bytes(self.bytes[at..at + 8].try_into().expect("they are eight"))
    }

    /// A number of at most seven digits, and the byte behind it.
    #[inline]
    fn number(&mut self, end: u8) -> Option<u32> {
        let text = self.eight();
        let (length, number) = text::read(text);
        if length == 0 || (text >> (8 * length)) as u8 != end {
            return None;
        }
        self.at += length as usize + 1;
        Some(number)
    }

    /// The same of a number that has most often one digit.
    #[inline]
    fn small(&mut self, end: u8) -> Option<u32> {
        let text = self.eight();
        let first = (text as u8).wrapping_sub(b'0');
        if first >= 10 || (text >> 8) as u8 != end {
            return self.number(end);
        }
        self.at += 2;
        Some(first.into())
    }

    #[inline]
    fn event(&mut self) -> Option<Event> {
        let text = self.eight();
        let begins = |length: u32| text & !0 >> (64 - 8 * length);
        let (opcode, length) = match (begins(5), begins(6), begins(7), text) {
            (TAKE, ..) => return self.bare(Event::Take),
            (STEP, ..) => return self.steps(),
            (READS, ..) => (READ, 5),
            (LOOK, ..) => return self.bare(Event::Look),
            (_, WRITES, ..) => (WRITE, 6),
            (_, ERASES, ..) => (ERASE, 6),
            (_, ABORTS, ..) => (ABORT, 6),
            (_, _, ACCESSES, _) => (ACCESS, 7),
            (_, _, POLLS, _) => (GET_COMMAND_STATUS, 7),
            (_, _, ONLINES, _) => (ONLINE, 7),
            (.., COMPARES) => (COMPARE, 8),
            (.., SET_UNITS) => (SET_UNIT, 8),
            _ => return None,
        };
        self.at = length;
        let reference = self.number(b' ')?;
        let mut it = Command { reference, opcode, ..Command::default() };
        if it.is_transfer() {
            it.unit = self.small(b' ')?.try_into().ok()?;
            it.parameter = self.number(b' ')?;
            it.block = self.number(b'\n')?;
        } else if it.is_immediate() {
            it.parameter = self.number(b'\n')?;
        } else {
            it.unit = self.small(b'\n')?.try_into().ok()?;
        }
        Some(Event::Send(it))
    }

    #[inline]
    fn bare(&mut self, event: Event) -> Option<Event> {
        self.at = 5;
        Some(event)
    }

    #[inline]
    fn steps(&mut self) -> Option<Event> {
        self.at = 5;
        let steps = self.small(b'\n')?;
        (1..=1000).contains(&steps).then_some(Event::Step(steps))
    }
}

/// A script, and where the reader stands.
struct Reader<'a> {
    script: &'a [u8],
    at: usize,
    line: usize,
}

impl<'a> Reader<'a> {
    /// The next line, if there is one.
    fn line(&mut self) -> Option<&'a [u8]> {
        let rest = self.script.get(self.at..).filter(|it| !it.is_empty())?;
        let length = rest.iter().position(|it| *it == b'\n').unwrap_or(rest.len());
        self.at += length + 1;
        Some(&rest[..length])
    }

    /// An event that is written in the usual way.
    #[inline]
    fn usual(&mut self) -> Option<Event> {
        let bytes = self.script.get(self.at..)?.first_chunk()?;
        let mut text = Text { bytes, at: 0 };
        let event = text.event()?;
        self.at += text.at;
        Some(event)
    }

    /// An event that is written in any way, or nothing if the line is skipped.
    #[inline(never)]
    fn unusual(&mut self) -> Result<Option<Event>, Cause> {
        let line = self.line().unwrap_or(&[]);
        let mut words = Words::of(line)?;
        words.next().map(|word| words.event(word)).transpose()
    }
}

/// The lines up to `go`.
fn header(reader: &mut Reader) -> Result<Queue, Cause> {
    let mut header = Header::default();
    loop {
        reader.line += 1;
        let line = reader.line().ok_or("header")?;
        if reader.line > LINES {
            return Err("lines");
        }
        let mut words = Words::of(line)?;
        if let Some(word) = words.next() {
            if let Some(queue) = header.line(word, &mut words)? {
                return Ok(queue);
            }
        }
    }
}

/// What a script does to the queue.
struct Run {
    queue: Queue,
    report: Report,
    left: u32, // of the events that may come
}

impl Run {
    #[inline(always)]
    fn act(&mut self, event: Event) -> Result<(), Cause> {
        let count = if let Event::Step(steps) = event { steps } else { 1 };
        self.left = self.left.checked_sub(count).ok_or("events")?;
        match event {
            Event::Step(steps) => self.report.steps(&mut self.queue, steps, None),
            Event::Bad(status) => self.report.steps(&mut self.queue, 1, Some(status)),
            Event::Take => self.report.take(&mut self.queue),
            Event::Look => self.report.look(&self.queue),
            Event::Send(command) => self.report.sent(command.reference, &self.queue.send(command)),
        }
        Ok(())
    }

    #[inline(never)]
    fn act_on_unusual(&mut self, reader: &mut Reader) -> Result<(), Cause> {
        reader.unusual()?.map_or(Ok(()), |event| self.act(event))
    }

    fn events(&mut self, reader: &mut Reader) -> Result<(), Cause> {
        while reader.at < reader.script.len() {
            reader.line += 1;
            if reader.line > LINES {
                return Err("lines");
            }
            match reader.usual() {
                Some(event) => self.act(event)?,
                None => self.act_on_unusual(reader)?,
            }
        }
        self.report.totals(self.queue.waiting());
        Ok(())
    }
}

/// The report of a script, or its first fault.
pub fn run(script: &[u8]) -> Result<Report, Fault> {
    if script.len() > SIZE {
        return Err((0, "size"));
    }
    let mut reader = Reader { script, at: 0, line: 0 };
    let queue = header(&mut reader).map_err(|cause| (reader.line, cause))?;
    let mut run = Run { report: Report::new(&queue), queue, left: EVENTS };
    match run.events(&mut reader) {
        Ok(()) => Ok(run.report),
        Err(cause) => Err((reader.line, cause)),
    }
}
