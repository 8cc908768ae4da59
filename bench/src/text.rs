// A session put away as text and taken up again, in plain Rust: the twin of the library's save and load, by the same
// passes. Nothing is allocated, there is no page but the one lent, and what is refused writes nothing.
use crate::library::Slip;
use crate::soundness::{sound, Budget, PAGE_LIMIT, PLAIN};

// The bytes that are enough for the first six lines, and for each line after them.
const HEAD_ROOM: usize = 256;
const LINE_ROOM: usize = 72;

// ---- Writing.

// Where bytes go: to a lent run, or nowhere, to be counted.
trait Sink {
    fn put(&mut self, byte: u8);

    fn puts(&mut self, text: &str) {
        text.bytes().for_each(|byte| self.put(byte));
    }
}

struct Run<'a> {
    text: &'a mut [u8],
    at: usize,
}

impl Sink for Run<'_> {
    fn put(&mut self, byte: u8) {
        self.text[self.at] = byte;
        self.at += 1;
    }
}

struct Count(usize);

impl Sink for Count {
    fn put(&mut self, _: u8) {
        self.0 += 1;
    }
}

fn write_number(sink: &mut impl Sink, mut number: u64) {
    let mut digits = [0u8; 20];
    let mut at = digits.len();
    loop {
        at -= 1;
        digits[at] = b'0' + (number % 10) as u8;
        number /= 10;
        if number == 0 {
            break;
        }
    }
    digits[at..].iter().for_each(|&digit| sink.put(digit));
}

// A part is at most 16.
fn write_part(sink: &mut impl Sink, part: u32) {
    if part >= 10 {
        sink.put(b'1');
    }
    sink.put(b'0' + (part % 10) as u8);
}

// A row is as long as there are ones after its zero.
fn write_shape(sink: &mut impl Sink, word: u32) {
    let mut rest = word << 1;
    let mut row = rest.count_ones();
    while rest != 0 {
        write_part(sink, row);
        rest <<= 1;
        let ones = rest.leading_ones();
        row -= ones;
        rest <<= ones;
        if rest != 0 {
            sink.put(b',');
        }
    }
}

fn write_class(sink: &mut impl Sink, word: u32) {
    let mut rest = word << 1;
    while rest != 0 {
        let part = rest.leading_zeros() + 1;
        write_part(sink, part);
        rest <<= part;
        if rest != 0 {
            sink.put(b',');
        }
    }
}

fn write_line(sink: &mut impl Sink, line: u64) {
    sink.puts("line=");
    sink.put(if line >> 63 == 1 { b'-' } else { b'+' });
    sink.put(b';');
    write_shape(sink, (line >> 32) as u32 % (1 << 31));
    sink.put(b';');
    write_class(sink, line as u32);
    sink.put(b'\n');
}

fn degree(shape: u32) -> u32 {
    let mut rest = shape << 1;
    let mut sum = 0;
    while rest != 0 {
        sum += rest.count_ones();
        rest <<= 1;
        rest <<= rest.leading_ones();
    }
    sum
}

fn write_session(sink: &mut impl Sink, slip: &Slip, lines: &[u64]) {
    sink.puts("degree=");
    write_number(sink, degree(slip.shape).into());
    sink.puts("\nshape=");
    write_shape(sink, slip.shape);
    sink.puts("\nclass=");
    write_class(sink, slip.class_word);
    sink.puts("\nsteps=");
    write_number(sink, slip.steps as u64);
    sink.puts("\nsettled=");
    if slip.settled < 0 {
        sink.put(b'-');
    }
    write_number(sink, slip.settled.unsigned_abs());
    sink.puts("\nlines=");
    write_number(sink, slip.lines);
    sink.put(b'\n');
    for &line in lines {
        write_line(sink, line);
    }
}

// The text to the front of the run, and its length. Refuses 6, 7, 17.
pub fn save(slip: &Slip, page: &[u64], text: &mut [u8]) -> Result<usize, u32> {
    if page.len() > PAGE_LIMIT {
        return Err(6);
    }
    if !sound(slip, page) {
        return Err(7);
    }
    let lines = &page[..slip.lines as usize];
    if text.len() < HEAD_ROOM + LINE_ROOM * lines.len() {
        let mut count = Count(0);
        write_session(&mut count, slip, lines);
        if text.len() < count.0 {
            return Err(17);
        }
    }
    let mut run = Run { text, at: 0 };
    write_session(&mut run, slip, lines);
    Ok(run.at)
}

// ---- Reading.

#[derive(Clone)]
struct Reader<'a> {
    text: &'a [u8],
    at: usize,
}

impl Reader<'_> {
    fn byte(&mut self) -> Option<u8> {
        let byte = *self.text.get(self.at)?;
        self.at += 1;
        Some(byte)
    }

    fn key(&mut self, key: &[u8]) -> Option<()> {
        self.text[self.at..].starts_with(key).then(|| self.at += key.len())
    }

    // Decimal figures with no needless zero, and a newline.
    fn number(&mut self) -> Option<u64> {
        let mut number = u64::from(digit(self.byte()?)?);
        let needless = number == 0;
        loop {
            match self.byte()? {
                b'\n' => return Some(number),
                _ if needless => return None,
                byte => number = number.checked_mul(10)?.checked_add(digit(byte)?.into())?,
            }
        }
    }

    // The parts of a partition of 0 to 16, with commas between them, and what ends them; the degree is the answer.
    fn partition(&mut self, end: u8, mut each: impl FnMut(u32)) -> Option<u32> {
        if *self.text.get(self.at)? == end {
            self.at += 1;
            return Some(0);
        }
        let (mut degree, mut last) = (0, 16);
        loop {
            let mut part = digit(self.byte()?)?;
            let mut after = self.byte()?;
            if let (1, Some(ones)) = (part, digit(after)) {
                part = 10 + ones;
                after = self.byte()?;
            }
            degree += part;
            if part == 0 || part > last || degree > 16 {
                return None;
            }
            each(part);
            last = part;
            if after == end {
                return Some(degree);
            }
            if after != b',' {
                return None;
            }
        }
    }

    fn shape(&mut self, end: u8) -> Option<(u32, u32)> {
        let (mut word, mut at, mut last) = (0u32, 31, 0);
        let degree = self.partition(end, |row| {
            if last != 0 {
                at -= last - row;
                word |= ((1 << (last - row)) - 1) << at;
            }
            at -= 1;
            last = row;
        })?;
        Some((word | ((1 << last) - 1) << (at - last), degree))
    }

    fn class(&mut self, end: u8) -> Option<(u32, u32)> {
        let (mut word, mut at) = (0u32, 31);
        let degree = self.partition(end, |part| {
            at -= part;
            word |= 1 << at;
        })?;
        Some((word, degree))
    }

    // A waiting line: its word, and the degrees of its shape and its class.
    fn line(&mut self) -> Option<(u64, u32, u32)> {
        self.key(b"line=")?;
        let minus = match self.byte()? {
            b'+' => 0,
            b'-' => 1 << 63,
            _ => return None,
        };
        self.key(b";")?;
        let (shape, rows) = self.shape(b';')?;
        let (class, cycles) = self.class(b'\n')?;
        Some((minus | u64::from(shape) << 32 | u64::from(class), rows, cycles))
    }

    // The first six lines, `lines` being what the last of them says; or the one at fault.
    fn head(&mut self) -> Result<Slip, u64> {
        let degree = self.key(b"degree=").and_then(|()| self.number()).ok_or(1u64)?;
        let (shape, rows) = self.key(b"shape=").and_then(|()| self.shape(b'\n')).ok_or(2u64)?;
        if degree != u64::from(rows) {
            return Err(1);
        }
        let (class_word, _) = self.key(b"class=").and_then(|()| self.class(b'\n')).ok_or(3u64)?;
        let steps = self.key(b"steps=").and_then(|()| i64::try_from(self.number()?).ok()).ok_or(4u64)?;
        let settled = self.key(b"settled=").and_then(|()| self.integer()).ok_or(5u64)?;
        let lines = self.key(b"lines=").and_then(|()| self.number()).ok_or(6u64)?;
        Ok(Slip { shape, class_word, settled, lines, steps, mode: PLAIN })
    }

    fn integer(&mut self) -> Option<i64> {
        if self.key(b"-").is_none() {
            return self.number()?.try_into().ok();
        }
        let size = self.number()?;
        (size != 0 && size <= 1 << 63).then(|| (size as i64).wrapping_neg())
    }

    // How many lines are left; a rest with no newline is one.
    fn lines_left(&self) -> u64 {
        let rest = &self.text[self.at..];
        let ended = rest.iter().filter(|&&byte| byte == b'\n').count();
        ended as u64 + u64::from(rest.last().is_some_and(|&byte| byte != b'\n'))
    }
}

fn digit(byte: u8) -> Option<u32> {
    byte.is_ascii_digit().then(|| u32::from(byte - b'0'))
}

// The slip, and the lines on the page with zeros after them. Refuses 6, 16, 10, 7; 16 with the text's line, the others
// with 0.
pub fn load(text: &[u8], page: &mut [u64]) -> Result<Slip, (u32, u64)> {
    if page.len() > PAGE_LIMIT {
        return Err((6, 0));
    }
    let mut reader = Reader { text, at: 0 };
    let slip = reader.head().map_err(|line| (16, line))?;
    if slip.lines != reader.lines_left() {
        return Err((16, 6));
    }
    let mut again = reader.clone();
    let mut budget = Budget::of(&slip);
    for line in 0..slip.lines {
        let (_, shape, class) = reader.line().ok_or((16, 7 + line))?;
        budget = budget.and_then(|mut budget| budget.spend(shape, class).map(|()| budget));
    }
    if slip.lines > page.len() as u64 {
        return Err((10, 0));
    }
    if budget.is_none() {
        return Err((7, 0));
    }
    let (lines, rest) = page.split_at_mut(slip.lines as usize);
    for word in lines {
        *word = again.line().map_or(0, |line| line.0);
    }
    rest.fill(0);
    Ok(slip)
}
