// The library's calls, as window/zembrusha.h declares them, each in a safe function.
#[repr(C)]
pub struct Number {
    pub refused: u32,
    pub number: u64,
}

#[repr(C)]
struct Listed {
    refused: u32,
    index: u64,
}

#[repr(C)]
#[derive(Clone, Copy, PartialEq)]
pub struct Slip {
    pub shape: u32,
    pub class_word: u32,
    pub settled: i64,
    pub lines: u64,
    pub steps: i64,
    pub mode: u32,
}

#[repr(C)]
pub struct Handed {
    pub refused: u32,
    pub slip: Slip,
}

#[repr(C)]
pub struct Loaded {
    pub refused: u32,
    pub line: u64,
    pub slip: Slip,
}

extern "C" {
    fn zembrusha_preview(
        slip: Slip,
        page: *const u64,
        words: usize,
        line: u64,
        cycle: u64,
        strip: *mut u64,
        length: usize,
    ) -> Number;
    fn zembrusha_commit(
        slip: Slip,
        page: *mut u64,
        words: usize,
        line: u64,
        cycle: u64,
        strip: *const u64,
        length: usize,
    ) -> Handed;
    fn zembrusha_watch_whole(slip: Slip, page: *const u64, words: usize, kind: u64, line: u64) -> i64;
    fn zembrusha_save(slip: Slip, page: *const u64, words: usize, text: *mut u8, length: usize) -> Number;
    fn zembrusha_load(text: *const u8, length: usize, page: *mut u64, words: usize) -> Loaded;
    fn zembrusha_open(shape: u32, class: u32, page: *mut u64, words: usize) -> Handed;
    fn zembrusha_gathered_open(
        shape: u32,
        class: u32,
        page: *mut u64,
        words: usize,
        coefficients: *mut i64,
        count: usize,
    ) -> Handed;
    fn zembrusha_gathered_preview(
        slip: Slip,
        page: *const u64,
        words: usize,
        coefficients: *const i64,
        count: usize,
        line: u64,
        cycle: u64,
        strip: *mut u64,
        length: usize,
    ) -> Number;
    fn zembrusha_gathered_commit(
        slip: Slip,
        page: *mut u64,
        words: usize,
        coefficients: *mut i64,
        count: usize,
        line: u64,
        cycle: u64,
        strip: *const u64,
        length: usize,
    ) -> Handed;
    fn zembrusha_gathered_watch_whole(
        slip: Slip,
        page: *const u64,
        words: usize,
        coefficients: *const i64,
        count: usize,
        kind: u64,
        line: u64,
    ) -> i64;
    fn zembrusha_column(class: u32, values: *mut i64, length: usize) -> Number;
    fn zembrusha_character(shape: u32, class: u32) -> i64;
    fn zembrusha_character_degree(shape: u32) -> i64;
    fn zembrusha_class_period(class: u32) -> i64;
    fn zembrusha_shapes_from_old(old: *const u32, count: usize, new: *mut u32, room: usize) -> Listed;
    fn zembrusha_shapes_to_old(new: *const u32, count: usize, old: *mut u32, room: usize) -> Listed;
}

pub fn column(class: u32, values: &mut [i64]) -> usize {
    unsafe { zembrusha_column(class, values.as_mut_ptr(), values.len()).number as usize }
}

pub fn character(shape: u32, class: u32) -> i64 {
    unsafe { zembrusha_character(shape, class) }
}

pub fn character_degree(shape: u32) -> i64 {
    unsafe { zembrusha_character_degree(shape) }
}

pub fn class_period(class: u32) -> i64 {
    unsafe { zembrusha_class_period(class) }
}

pub fn shapes_from_old(old: &[u32], new: &mut [u32]) -> (u32, u64) {
    let answer = unsafe { zembrusha_shapes_from_old(old.as_ptr(), old.len(), new.as_mut_ptr(), new.len()) };
    (answer.refused, answer.index)
}

pub fn shapes_to_old(new: &[u32], old: &mut [u32]) -> (u32, u64) {
    let answer = unsafe { zembrusha_shapes_to_old(new.as_ptr(), new.len(), old.as_mut_ptr(), old.len()) };
    (answer.refused, answer.index)
}

pub fn preview(slip: Slip, page: &[u64], line: u64, cycle: u64, strip: &mut [u64]) -> (u32, usize) {
    let (to, length) = (strip.as_mut_ptr(), strip.len());
    let answer = unsafe { zembrusha_preview(slip, page.as_ptr(), page.len(), line, cycle, to, length) };
    (answer.refused, answer.number as usize)
}

pub fn commit(slip: Slip, page: &mut [u64], line: u64, cycle: u64, strip: &[u64]) -> (u32, Slip) {
    let (from, length) = (strip.as_ptr(), strip.len());
    let handed = unsafe { zembrusha_commit(slip, page.as_mut_ptr(), page.len(), line, cycle, from, length) };
    (handed.refused, handed.slip)
}

pub fn watch_whole(slip: Slip, page: &[u64], kind: u64, line: u64) -> i64 {
    unsafe { zembrusha_watch_whole(slip, page.as_ptr(), page.len(), kind, line) }
}

pub fn save(slip: Slip, page: &[u64], text: &mut [u8]) -> (u32, usize) {
    let answer = unsafe { zembrusha_save(slip, page.as_ptr(), page.len(), text.as_mut_ptr(), text.len()) };
    (answer.refused, answer.number as usize)
}

pub fn load(text: &[u8], page: &mut [u64]) -> Loaded {
    unsafe { zembrusha_load(text.as_ptr(), text.len(), page.as_mut_ptr(), page.len()) }
}

pub fn open(shape: u32, class: u32, page: &mut [u64]) -> (u32, Slip) {
    let handed = unsafe { zembrusha_open(shape, class, page.as_mut_ptr(), page.len()) };
    (handed.refused, handed.slip)
}

pub fn gathered_open(shape: u32, class: u32, page: &mut [u64], column: &mut [i64]) -> (u32, Slip) {
    let (to, words, beside, count) = (page.as_mut_ptr(), page.len(), column.as_mut_ptr(), column.len());
    let handed = unsafe { zembrusha_gathered_open(shape, class, to, words, beside, count) };
    (handed.refused, handed.slip)
}

pub fn gathered_preview(
    slip: Slip,
    page: &[u64],
    column: &[i64],
    line: u64,
    cycle: u64,
    strip: &mut [u64],
) -> (u32, usize) {
    let (from, words, beside, count) = (page.as_ptr(), page.len(), column.as_ptr(), column.len());
    let (to, length) = (strip.as_mut_ptr(), strip.len());
    let answer = unsafe { zembrusha_gathered_preview(slip, from, words, beside, count, line, cycle, to, length) };
    (answer.refused, answer.number as usize)
}

pub fn gathered_commit(
    slip: Slip,
    page: &mut [u64],
    column: &mut [i64],
    line: u64,
    cycle: u64,
    strip: &[u64],
) -> (u32, Slip) {
    let (to, words, beside, count) = (page.as_mut_ptr(), page.len(), column.as_mut_ptr(), column.len());
    let (from, length) = (strip.as_ptr(), strip.len());
    let handed = unsafe { zembrusha_gathered_commit(slip, to, words, beside, count, line, cycle, from, length) };
    (handed.refused, handed.slip)
}

pub fn gathered_watch_whole(slip: Slip, page: &[u64], column: &[i64], kind: u64, line: u64) -> i64 {
    let (from, words, beside, count) = (page.as_ptr(), page.len(), column.as_ptr(), column.len());
    unsafe { zembrusha_gathered_watch_whole(slip, from, words, beside, count, kind, line) }
}
