//! Digits, eight or sixteen at a time: numbers are read and written by sums over all digits of a word at once.

/// A word of eight equal bytes.
const fn bytes(it: u8) -> u64 {
    u64::from_le_bytes([it; 8])
}

/// How many decimal digits a text begins with, if they are no more than seven, and what number they are.
#[inline]
pub fn read(text: u64) -> (u32, u32) {
    let digits = text ^ bytes(b'0');
    let others = (digits.wrapping_add(bytes(0x76)) | digits) & bytes(0x80);
    let length = others.trailing_zeros() / 8;
    if length == 0 || length == 8 {
        return (0, 0);
    }
    let ones = digits << (64 - 8 * length);
    let tens = (ones.wrapping_mul(1 + (10 << 8)) >> 8) & 0x00FF_00FF_00FF_00FF;
    let hundreds = (tens.wrapping_mul(1 + (100 << 16)) >> 16) & 0x0000_FFFF_0000_FFFF;
    (length, (hundreds.wrapping_mul(1 + (10000 << 32)) >> 32) as u32)
}

/// The eight digits of a number below 100,000,000, as numbers, the first in the lowest byte.
#[inline]
fn split(number: u32) -> u64 {
    let halves = u64::from(number / 10000) | u64::from(number % 10000) << 32;
    let hundreds = (halves * 10486 >> 20) & 0x0000_007F_0000_007F;
    let pairs = (halves << 16) - hundreds * ((100 << 16) - 1);
    let tens = (pairs * 103 >> 10) & 0x000F_000F_000F_000F;
    (pairs << 8).wrapping_sub(tens * ((10 << 8) - 1))
}

/// The text of a number from 1 to 99,999,999, and how long that is.
#[inline]
fn decimal(number: u32) -> ([u8; 8], usize) {
    let digits = split(number);
    let zeros = digits.trailing_zeros() & 0x38;
    let text = (digits | bytes(b'0')) >> zeros;
    (text.to_le_bytes(), 8 - zeros as usize / 8)
}

/// The hexadecimal digits of sixteen bytes.
#[inline]
pub fn hex(bytes: &[u8; 16]) -> [u8; 32] {
    const LETTERS: u16 = (b'a' - b'9' - 1) as u16;
    let mut digits = [0; 32];
    for (to, it) in digits.as_chunks_mut::<2>().0.iter_mut().zip(bytes) {
        let it = u16::from(*it);
        let pair = (it >> 4 | it << 8) & 0x0F0F;
        let is_letter = (pair + 0x0606) >> 4 & 0x0101;
        *to = (pair + 0x3030 + is_letter * LETTERS).to_le_bytes();
    }
    digits
}

/// A piece of a report has so many bytes.
const PIECE: usize = 1 << 20;
/// More than any line takes, and whole stores behind its end.
const ROOM: usize = 160;

type Piece = Box<[u8; PIECE]>;

fn piece() -> Piece {
    vec![0; PIECE].try_into().expect("it has as many bytes")
}

/// Text that grows, in pieces that stay where they are. It is written when the script has ended without a fault.
pub struct Pieces {
    full: Vec<(Piece, usize)>,
    last: Piece,
    at: usize,
}

impl Pieces {
    pub fn new() -> Self {
        Self { full: Vec::new(), last: piece(), at: 0 }
    }

    pub fn all(&self) -> impl Iterator<Item = &[u8]> {
        self.full.iter().map(|(it, length)| &it[..*length]).chain([&self.last[..self.at]])
    }

    #[cold]
    fn renew(&mut self) {
        let full = std::mem::replace(&mut self.last, piece());
        self.full.push((full, self.at));
        self.at = 0;
    }

    /// A new line.
    #[inline]
    pub fn line(&mut self) -> Line<'_> {
        let mut begin = self.at;
        if begin > PIECE - ROOM {
            self.renew();
            begin = 0;
        }
        let room = self.last[begin..].first_chunk_mut().expect("there is room");
        Line { room, at: 0, begin, end: &mut self.at }
    }
}

/// A line that is being written. What is put is stored whole, and as much of it counts as is said; the next comes over
/// the rest. So all stores have lengths that the compiler knows.
pub struct Line<'a> {
    room: &'a mut [u8; ROOM],
    at: usize,
    begin: usize,
    end: &'a mut usize,
}

impl Line<'_> {
    #[inline]
    pub fn put<const N: usize>(&mut self, bytes: &[u8; N], length: usize) {
        let at = self.at & 127; // a line is shorter: the compiler doesn't know
        self.room[at..at + N].copy_from_slice(bytes);
        self.at += length;
    }

    #[inline]
    pub fn number(&mut self, number: u32) {
        if number < 10 {
            self.put(&[b'0' + number as u8], 1);
        } else if number < 100_000_000 {
            let (text, length) = decimal(number);
            self.put(&text, length);
        } else {
            self.put(&[b'0' + (number / 1_000_000_000) as u8], usize::from(number >= 1_000_000_000));
            self.nine(number % 1_000_000_000);
        }
    }

    /// A number's last nine digits.
    #[inline(never)]
    fn nine(&mut self, number: u32) {
        self.put(&[b'0' + (number / 100_000_000) as u8], 1);
        self.put(&(split(number % 100_000_000) | bytes(b'0')).to_le_bytes(), 8);
    }

    /// Sixteen bytes from this place on, and how many of them were written.
    #[inline]
    pub fn since(&self, begin: usize) -> ([u8; 16], usize) {
        let at = begin & 127;
        let bytes = self.room[at..at + 16].first_chunk().expect("they are sixteen");
        (*bytes, self.at - begin)
    }

    /// No more than so many bytes count.
    #[inline]
    pub fn cut(&mut self, length: usize) {
        self.at = length;
    }

    #[inline]
    pub fn end(mut self) {
        self.put(b"\n", 1);
        *self.end = self.begin + self.at;
    }
}
