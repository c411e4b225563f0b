//! What a report says of each event.

use crate::end;
use crate::queue::{Queue, Refused, Sent};
use crate::slot::{Body, SLOTS};
use crate::text::{hex, Line, Pieces};

pub struct Report {
    text: Pieces,
    names: [([u8; 16], usize); SLOTS], // the numbers of the commands that wait, as text with a space
    units: Vec<([u8; 32], usize)>,     // what stands between a command's number and its block
    steps: u32,
    seeks: u64,
}

impl Report {
    pub fn new(queue: &Queue) -> Self {
        let unit = |number: u16| {
            let (text, mut bytes) = (format!("unit {number} block "), [0; 32]);
            bytes[..text.len()].copy_from_slice(text.as_bytes());
            (bytes, text.len())
        };
        Self {
            text: Pieces::new(),
            names: [([0; 16], 0); SLOTS],
            units: queue.drives.iter().map(|it| unit(it.unit.number)).collect(),
            steps: 0,
            seeks: 0,
        }
    }

    pub fn pieces(&self) -> impl Iterator<Item = &[u8]> {
        self.text.all()
    }

    /// A line that is always the same.
    fn whole<const N: usize>(&mut self, text: &[u8; N]) {
        let mut line = self.text.line();
        line.put(text, N);
        line.end();
    }

    #[inline]
    pub fn sent(&mut self, reference: u32, sent: &Result<Sent, Refused>) {
        match sent {
            Ok(Sent::Queued(slot)) => {
                let mut line = self.text.line();
                line.put(b"queued  ", 7);
                line.number(reference);
                line.put(b" ", 1);
                let name = line.since(7);
                line.cut(6 + name.1);
                self.names[*slot & 63] = name;
                line.end();
            }
            Ok(Sent::Answered) => {
                let mut line = self.text.line();
                line.put(b"answered        ", 9);
                line.number(reference);
                line.end();
            }
            Ok(Sent::Aborted(other)) => {
                let mut line = self.text.line();
                line.put(b"answered        ", 9);
                line.number(reference);
                line.put(b" aborted        ", 9);
                line.number(*other);
                line.end();
            }
            Err(why) => self.refused(*why),
        }
    }

    fn refused(&mut self, why: Refused) {
        match why {
            Refused::NoCredit => self.whole(b"refused no-credit"),
            Refused::LastCredit => self.whole(b"refused last-credit"),
            Refused::Doubled => self.whole(b"refused doubled"),
        }
    }

    #[inline]
    pub fn steps(&mut self, queue: &mut Queue, count: u32, bad: Option<u16>) {
        self.steps += count;
        for done in 0..count {
            if !self.step(queue, bad) {
                return self.idle(count - done);
            }
        }
    }

    /// Steps of which nothing comes.
    #[inline(never)]
    fn idle(&mut self, count: u32) {
        const SIXTEEN: &[u8; 79] =
            b"idle\nidle\nidle\nidle\nidle\nidle\nidle\nidle\nidle\nidle\nidle\nidle\nidle\nidle\nidle\nidle";
        for _ in 0..count / 16 {
            self.whole(SIXTEEN);
        }
        for _ in 0..count % 16 {
            self.whole(b"idle");
        }
    }

    /// Whether something waited.
    #[inline]
    fn step(&mut self, queue: &mut Queue, bad: Option<u16>) -> bool {
        let Some(served) = queue.step(bad) else { return false };
        self.seeks += u64::from(served.seek);
        let (name, length) = &self.names[served.slot & 63];
        let mut line = self.text.line();
        line.put(b"serve   ", 6);
        line.put(name, *length);
        let (unit, length) = &self.units[served.place];
        line.put(unit, *length);
        match served.block {
            Some(block) => line.number(block),
            None => line.put(b"none", 4),
        }
        line.put(b" seek   ", 6);
        line.number(served.seek);
        if let Some(status) = served.ended {
            ended(&mut line, status);
        }
        line.end();
        true
    }

    #[inline]
    pub fn take(&mut self, queue: &mut Queue) {
        let Some(slot) = queue.take() else {
            return self.whole(b"none");
        };
        let it = &queue.slots[slot & 63];
        let mut line = self.text.line();
        line.put(b"end ", 4);
        line.put(&hex(&end::head(it)), 32);
        let length = end::length(it.body);
        if it.body == Body::Moved {
            line.put(&[b'0'; 32], 32);
        } else if length > 16 {
            let tail = end::tail(it, queue);
            let (tail, _) = tail.as_chunks::<16>();
            line.put(&hex(&tail[0]), 32);
            if length > 32 {
                line.put(&hex(&tail[1]), 32);
            }
        }
        line.cut(4 + 2 * length);
        line.end();
    }

    pub fn look(&mut self, queue: &Queue) {
        for (slot, figure) in queue.figures() {
            let mut line = self.text.line();
            line.put(b"figure  ", 7);
            let (name, length) = &self.names[slot & 63];
            line.put(name, *length);
            line.number(figure);
            line.end();
        }
    }

    pub fn totals(&mut self, pending: u32) {
        let text = format!("steps {} seeks {} pending {pending}", self.steps, self.seeks);
        let mut bytes = [b' '; 80];
        bytes[..text.len()].copy_from_slice(text.as_bytes());
        let mut line = self.text.line();
        line.put(&bytes, text.len());
        line.end();
    }
}

#[inline]
fn ended(line: &mut Line, status: u16) {
    if status == 0 {
        return line.put(b" ended 0000     ", 11);
    }
    line.put(b" ended  ", 7);
    let mut bytes = [0; 16];
    bytes[..2].copy_from_slice(&status.to_be_bytes());
    line.put(&hex(&bytes), 4);
}
