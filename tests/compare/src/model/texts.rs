//! Sessions as text (document 02, P1 and P7): written part by part, and read by splitting, each line on its own. What
//! is wrong with every line is found first, and only then which of them comes first.

use super::gathered::{self, Session};
use super::partitions::{degree, is_partition};
use super::sessions::{sound, written, Line, Slip, GATHERED, PAGE_LIMIT, PLAIN};
use super::words::{pack_class, pack_shape, read_pair};
use super::{Answer, Parts, DEGREE_LIMIT};

/// What a load gives, or its refusal number and the text's line, which is 0 but for 16.
pub type Loaded<T> = Result<T, (u32, u64)>;

/// The first line of a gathered text.
const MODE_LINE: &str = "mode=gathered";

fn joined(parts: &[u8]) -> String {
    parts.iter().map(u8::to_string).collect::<Vec<_>>().join(",")
}

/// The text of a slip and its page. Refuses 6, 7.
pub fn text(slip: &Slip, page: &[u64]) -> Answer<String> {
    let sign = |line: &Line| if line.sign < 0 { "-".to_string() } else { "+".to_string() };
    body(slip, &sound(slip, page)?, sign)
}

/// The text of a gathered session. Refuses 6, 21, 7.
pub fn gathered_text(session: &Session) -> Answer<String> {
    let lines = gathered::sound(session)?;
    Ok(MODE_LINE.to_string() + "\n" + &body(&session.slip, &lines, |line| line.sign.to_string())?)
}

/// The lines that both modes have, the waiting ones with what stands for their sign.
fn body(slip: &Slip, lines: &[Line], sign: impl Fn(&Line) -> String) -> Answer<String> {
    let (rows, cycles) = read_pair(slip.shape, slip.class)?;
    let waiting =
        lines.iter().map(|line| format!("line={};{};{}", sign(line), joined(&line.shape), joined(&line.class)));
    let head = [
        format!("degree={}", degree(&rows)),
        format!("shape={}", joined(&rows)),
        format!("class={}", joined(&cycles)),
        format!("steps={}", slip.steps),
        format!("settled={}", slip.settled),
        format!("lines={}", lines.len()),
    ];
    Ok(head.into_iter().chain(waiting).map(|line| line + "\n").collect())
}

/// The lines of a text. A rest that no newline ends is one more, of which nothing is to be read.
fn lines(text: &[u8]) -> Vec<Option<&[u8]>> {
    let mut lines: Vec<Option<&[u8]>> = text.split(|&byte| byte == b'\n').map(Some).collect();
    match lines.pop() {
        Some(Some([])) | None => {}
        Some(_) => lines.push(None),
    }
    lines
}

/// A decimal number with no needless zero; one that is too long for all that is asked is the largest.
fn number(text: &[u8]) -> Option<u128> {
    let needless = text.len() > 1 && text[0] == b'0';
    if text.is_empty() || needless || !text.iter().all(u8::is_ascii_digit) {
        return None;
    }
    Some(text.iter().fold(0, |number: u128, digit| number.saturating_mul(10).saturating_add((digit - b'0').into())))
}

/// A number with a minus where it is negative, and only there.
fn integer(text: &[u8]) -> Option<i64> {
    let size = |text| i128::try_from(number(text)?).ok();
    let whole = match text.strip_prefix(b"-") {
        Some(text) => -size(text).filter(|&size| size > 0)?,
        None => size(text)?,
    };
    i64::try_from(whole).ok()
}

/// The parts of a partition of 0 to 16.
fn partition(text: &[u8]) -> Option<Parts> {
    if text.is_empty() {
        return Some(vec![]);
    }
    let part = |text| u8::try_from(number(text)?).ok();
    let parts: Parts = text.split(|&byte| byte == b',').map(part).collect::<Option<_>>()?;
    (is_partition(&parts) && parts.len() <= 16 && degree(&parts) <= DEGREE_LIMIT).then_some(parts)
}

/// What stands for a sign, a shape and a class.
fn waiting(text: &[u8], sign: Sign) -> Option<Line> {
    let [first, shape, class] = text.split(|&byte| byte == b';').collect::<Vec<_>>()[..] else { return None };
    Some(Line { sign: sign(first)?, shape: partition(shape)?, class: partition(class)? })
}

/// How a waiting line's first field is read.
type Sign = fn(&[u8]) -> Option<i64>;

fn plain_sign(text: &[u8]) -> Option<i64> {
    match text {
        b"+" => Some(1),
        b"-" => Some(-1),
        _ => None,
    }
}

/// The slip and the lines of a text's lines, or the number of the first that is not of its form.
fn form(lines: &[Option<&[u8]>], mode: u32, sign: Sign) -> Result<(Slip, Vec<Line>), u64> {
    let after = |at: usize, key: &str| lines.get(at - 1).copied().flatten()?.strip_prefix(format!("{key}=").as_bytes());
    let rows = after(2, "shape").and_then(partition);
    let cycles = after(3, "class").and_then(partition);
    let said = after(1, "degree").and_then(number).and_then(|said| u64::try_from(said).ok());
    let said = said.filter(|&said| rows.as_ref().map_or(true, |rows| said == degree(rows).into()));
    let steps = after(4, "steps").and_then(number).and_then(|steps| i64::try_from(steps).ok());
    let settled = after(5, "settled").and_then(integer);
    let follow = lines.len().saturating_sub(6);
    let count = after(6, "lines").and_then(number).filter(|&count| count == follow as u128);
    let waiting: Vec<Option<Line>> =
        (7..7 + follow).map(|at| after(at, "line").and_then(|text| waiting(text, sign))).collect();
    let head = [said.is_some(), rows.is_some(), cycles.is_some(), steps.is_some(), settled.is_some(), count.is_some()];
    let mut good = head.into_iter().chain(waiting.iter().map(Option::is_some));
    if let Some(before) = good.position(|good| !good) {
        return Err(before as u64 + 1);
    }
    let (shape, class) = (pack_shape(&rows.unwrap()), pack_class(&cycles.unwrap()));
    let slip = Slip { shape, class, settled: settled.unwrap(), lines: follow as u64, steps: steps.unwrap(), mode };
    Ok((slip, waiting.into_iter().flatten().collect()))
}

/// A refusal that is at no line of the text.
fn lineless(refused: u32) -> (u32, u64) {
    (refused, 0)
}

/// The slip and the page of a text, on a page of so many words. Refuses 6, 16, 10, 7.
pub fn load(text: &[u8], words: usize) -> Loaded<(Slip, Vec<u64>)> {
    if words > PAGE_LIMIT {
        return Err(lineless(6));
    }
    let (slip, waiting) = form(&lines(text), PLAIN, plain_sign).map_err(|line| (16, line))?;
    let page = written(&waiting, words).map_err(lineless)?;
    sound(&slip, &page).map_err(lineless)?;
    Ok((slip, page))
}

/// The session of a gathered text, on a page of so many words and a column of so many coefficients. Its first line says
/// the mode, and the others are those of a plain text, but for the coefficients. Refuses 6, 21, 16, 10, 7.
pub fn gathered_load(text: &[u8], words: usize, count: usize) -> Loaded<Session> {
    gathered::lengths(words, count).map_err(lineless)?;
    let lines = lines(text);
    if lines.first().copied().flatten() != Some(MODE_LINE.as_bytes()) {
        return Err((16, 1));
    }
    let (slip, waiting) = form(&lines[1..], GATHERED, integer).map_err(|line| (16, line + 1))?;
    let (page, column) = gathered::written(&waiting, words).map_err(lineless)?;
    let session = Session { slip, page, column };
    gathered::sound(&session).map_err(lineless)?;
    Ok(session)
}
