//! Lines of any form, word by word: headers, and whatever `script` doesn't read at once. Here each fault is told.

use crate::drive::Unit;
use crate::queue::{Limits, Queue};
use crate::slot::*;

/// What is wrong with a line.
pub type Cause = &'static str;

/// What comes, but for a message's end.
pub enum Event {
    Step(u32),
    Bad(u16),
    Take,
    Look,
    Send(Command),
}

pub struct Words<'a> {
    rest: &'a [u8],
}

impl<'a> Words<'a> {
    /// Those of a line, none if it is skipped.
    pub fn of(line: &'a [u8]) -> Result<Self, Cause> {
        let line = line.strip_suffix(b"\r").unwrap_or(line);
        if line.len() > 200 {
            return Err("long");
        }
        if line.first() == Some(&b'#') {
            return Ok(Self { rest: &[] });
        }
        if line.iter().all(|it| (b' '..=b'~').contains(it)) {
            Ok(Self { rest: line })
        } else {
            Err("byte")
        }
    }

    pub fn next(&mut self) -> Option<&'a [u8]> {
        let begin = self.rest.iter().position(|it| *it != b' ')?;
        let rest = &self.rest[begin..];
        let end = rest.iter().position(|it| *it == b' ').unwrap_or(rest.len());
        let (word, rest) = rest.split_at(end);
        self.rest = rest;
        Some(word)
    }

    /// So many numbers, the last words of the line. Too few or too many words come before a wrong one.
    fn numbers<const N: usize>(&mut self) -> Result<[u32; N], Cause> {
        let mut words = [&[][..]; N];
        for word in &mut words {
            *word = self.next().ok_or("count")?;
        }
        if self.next().is_some() {
            return Err("count");
        }
        let mut numbers = [0; N];
        for (number, word) in numbers.iter_mut().zip(words) {
            *number = read(word).ok_or("number")?;
        }
        Ok(numbers)
    }

    pub fn event(&mut self, word: &[u8]) -> Result<Event, Cause> {
        match word {
            b"step" => {
                let [steps] = self.numbers()?;
                if (1..=1000).contains(&steps) {
                    Ok(Event::Step(steps))
                } else {
                    Err("number")
                }
            }
            b"bad" => self.bad(),
            b"take" => self.numbers::<0>().map(|_| Event::Take),
            b"look" => self.numbers::<0>().map(|_| Event::Look),
            _ => self.command(word).map(Event::Send),
        }
    }

    fn bad(&mut self) -> Result<Event, Cause> {
        let word = self.next().ok_or("count")?;
        if self.next().is_some() {
            return Err("count");
        }
        if word.len() != 4 || !word.iter().all(u8::is_ascii_hexdigit) {
            return Err("hex");
        }
        let status = word.iter().fold(0, |sum, it| sum << 4 | (*it as char).to_digit(16).unwrap_or(0));
        if status % 32 < 5 {
            Err("status")
        } else {
            Ok(Event::Bad(status as u16))
        }
    }

    fn command(&mut self, word: &[u8]) -> Result<Command, Cause> {
        let opcode = match word {
            b"abort" => ABORT,
            b"status" => GET_COMMAND_STATUS,
            b"unitstatus" => GET_UNIT_STATUS,
            b"setcontroller" => SET_CONTROLLER,
            b"available" => AVAILABLE,
            b"online" => ONLINE,
            b"setunit" => SET_UNIT,
            b"access" => ACCESS,
            b"erase" => ERASE,
            b"compare" => COMPARE,
            b"read" => READ,
            b"write" => WRITE,
            _ => return Err("word"),
        };
        let mut it = Command { opcode, ..Command::default() };
        match opcode {
            ABORT | GET_COMMAND_STATUS => [it.reference, it.parameter] = self.numbers()?,
            SET_CONTROLLER => [it.reference] = self.numbers()?,
            GET_UNIT_STATUS..=SET_UNIT => {
                let [reference, unit] = self.numbers()?;
                (it.reference, it.unit) = (reference, short(unit)?);
            }
            _ => {
                let [reference, unit, parameter, block] = self.numbers()?;
                it = Command { reference, parameter, block, unit: short(unit)?, opcode };
            }
        }
        Ok(it)
    }
}

fn read(word: &[u8]) -> Option<u32> {
    if word.len() > 10 || !word.iter().all(u8::is_ascii_digit) {
        return None;
    }
    let number = word.iter().fold(0, |sum, it| sum * 10 + u64::from(it - b'0'));
    u32::try_from(number).ok()
}

fn short(number: u32) -> Result<u16, Cause> {
    u16::try_from(number).map_err(|_| "number")
}

#[derive(Default)]
pub struct Header {
    step: usize,
    numbers: [u64; 4],
    is_times: bool,
    units: Vec<Unit>,
}

impl Header {
    /// A line of the header, and the queue if it was the last one.
    pub fn line(&mut self, word: &[u8], words: &mut Words) -> Result<Option<Queue>, Cause> {
        match (self.step, word) {
            (0, b"credits") | (1, b"budget" | b"passing") | (2, b"longest") => {
                let [number] = words.numbers()?;
                self.numbers[self.step] = number.into();
                self.is_times |= word == b"passing";
            }
            (3, b"timeout") => {
                let [number] = words.numbers()?;
                self.numbers[3] = short(number)?.into();
            }
            (4.., b"unit") => self.unit(words.numbers()?)?,
            (5.., b"go") => return words.numbers::<0>().and_then(|_| self.queue().map(Some)),
            _ => return Err("word"),
        }
        self.step += 1;
        Ok(None)
    }

    fn unit(&mut self, [number, track, group, cylinder, size]: [u32; 5]) -> Result<(), Cause> {
        let (number, track, group, cylinder) = (short(number)?, short(track)?, short(group)?, short(cylinder)?);
        let is_behind = self.units.last().is_none_or(|it| it.number < number);
        if track == 0 || group == 0 || cylinder == 0 || size == 0 || !is_behind || self.units.len() == 16 {
            return Err("unit");
        }
        let id = u64::from(number) + 1;
        let serial = id as u32;
        self.units.push(Unit { id, number, track, group, cylinder, size, media: 0, serial });
        Ok(())
    }

    fn queue(&self) -> Result<Queue, Cause> {
        let [credits, budget, longest, timeout] = self.numbers;
        let budget = if self.is_times { budget.saturating_mul(longest) } else { budget };
        let is_lawful = (2..=64).contains(&credits)
            && (1..=8_388_608).contains(&longest)
            && (1..=255).contains(&timeout)
            && (credits - 1) * longest + budget < 1 << 32;
        if !is_lawful {
            return Err("config");
        }
        let limits = Limits {
            id: 1,
            budget: budget as u32,
            credits: credits as u32,
            longest: longest as u32,
            timeout: timeout as u16,
        };
        Ok(Queue::new(limits, &self.units, true))
    }
}
