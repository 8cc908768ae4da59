// A plain Rust twin of the library's column: the same algorithm over the same tables.
const WORD_COUNT: usize = 915;

#[allow(dead_code)]
mod tables {
    // What the tables name of the crates around them.
    mod words {
        pub const DEGREES: usize = 17;
    }
    include!("../../crates/classcolumns/src/tables.rt");
    include!("../../crates/listing/src/tables.rt");
}
use tables::{COUNTS, DISPLACEMENTS, EIGHT_DIGITS, PLACE_COUNT, STARTS, WORDS};

fn place(word: u32) -> usize {
    DISPLACEMENTS[(word >> 22) as usize] as usize + (word >> 14) as usize % EIGHT_DIGITS
}

// The words of a degree, in listing order.
fn section(degree: usize) -> &'static [u32] {
    static ALL: [u32; WORD_COUNT] = WORDS;
    &ALL[STARTS[degree]..][..COUNTS[degree]]
}

// The signed sum of what the table has for the words that the hooks of this length leave.
fn hook_sum(table: &[i64], shape: u32, length: u32) -> i64 {
    let mut left = (!shape & (shape << length)) % 0x8000_0000;
    let mut sum = 0;
    while left != 0 {
        let at = 31 - left.leading_zeros();
        let exchanged = shape + (1 << at) - (1 << (at - length));
        let word = (exchanged << (!(exchanged << 1)).leading_zeros()) % 0x8000_0000;
        let below = (shape >> (at - length)) % (1 << length);
        let value = table[place(word)];
        sum += if (length + below.count_ones()) % 2 == 1 { -value } else { value };
        left -= 1 << at;
    }
    sum
}

// The values of a class for all shapes of its degree, in listing order; how many there are is the answer.
pub fn column(parts: &[u8], values: &mut [i64]) -> usize {
    let mut table = [0i64; PLACE_COUNT];
    table[place(0)] = 1;
    let mut degree = 0usize;
    for &part in parts.iter().rev() {
        degree += part as usize;
        for &shape in section(degree) {
            table[place(shape)] = hook_sum(&table, shape, part as u32);
        }
    }
    let shapes = section(degree);
    for (value, &shape) in values.iter_mut().zip(shapes) {
        *value = table[place(shape)];
    }
    shapes.len()
}
