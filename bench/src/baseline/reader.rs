//! One pass over a text: it is read into compact rows, and what acceptance asks for is gathered.

use super::number;
use super::table::Sight;
use super::{LIMIT, REFUSED_DEPTH, REFUSED_FORM, REFUSED_KIND, REFUSED_NODES};

/// A node, outermost first. `x` is the number, the delay, the place in the values for month 0, the
/// sign of a transfer or the month of a leaf; `b` and `c` are the rows of the second and third child.
#[derive(Clone, Copy)]
pub struct Row {
    pub x: i64,
    pub at: u16,
    pub b: u16,
    pub c: u16,
    pub letter: u8,
    pub tag: u8,
}

/// A change that compiling makes to the plan's text: bytes `from` to `to` are replaced.
#[derive(Clone, Copy)]
pub struct Edit {
    pub from: u16,
    pub to: u16,
    pub month: i32,
    /// Which of the endings of settings comes behind the month; 0 is the empty one.
    pub ending: u16,
    pub letter: u8,
}

/// Only what acceptance asks for.
pub const MEASURE: u8 = 0;
/// Rows too.
pub const ROWS: u8 = 1;
/// Compiling's changes instead of rows.
pub const EDITS: u8 = 2;

#[derive(Clone, Copy)]
pub struct Shape {
    pub length: i32,
    pub first: i32,
    pub magnitude: i64,
}

const FAR: i32 = 1 << 28;
const NOTHING: Shape = Shape {
    length: 0,
    first: FAR,
    magnitude: 0,
};

const PLAN: u8 = 1;
const AMOUNT: u8 = 2;
const TEST: u8 = 3;

const fn kinds(payoff: bool) -> [u8; 256] {
    let mut kinds = [0; 256];
    let plans: &[u8] = if payoff { b"ZSBWFH" } else { b"ZSBWLT" };
    let all = [plans, b"NOAUKQI", b"GEYVR"];
    let mut kind = 0;
    while kind < 3 {
        let mut k = 0;
        while k < all[kind].len() {
            kinds[all[kind][k] as usize] = kind as u8 + 1;
            k += 1;
        }
        kind += 1;
    }
    kinds
}

pub struct Reader<'a, const PAYOFF: bool, const MODE: u8> {
    text: &'a [u8],
    /// Where the next field begins, as if a comma stood behind the text.
    at: usize,
    nodes: usize,
    sight: &'a Sight<'a>,
    pub refusal: u8,
    pub unset: bool,
    pub unread: bool,
    pub untimely: bool,
    pub beyond: bool,
    pub rows: Vec<Row>,
    pub edits: Vec<Edit>,
    /// Where open settings stand in the text.
    pub opens: Vec<u16>,
    /// The settings above a node, lowest first, each of three bytes.
    pub endings: Vec<Vec<u8>>,
    delay: i32,
    ending: u16,
    /// The least and greatest offset in the amount or test that is being read. A plan never stands
    /// inside one, so they need not come back with each of its parts.
    least: i32,
    latest: i32,
}

/// Reads a whole text as a plan whose root stands in month `root`.
pub fn read<'a, const PAYOFF: bool, const MODE: u8>(
    text: &'a [u8],
    sight: &'a Sight<'a>,
    root: i64,
) -> (Reader<'a, PAYOFF, MODE>, Shape) {
    let room = (text.len() / 2 + 1).min(512);
    let mut reader = Reader {
        text,
        at: 0,
        nodes: 0,
        sight,
        refusal: 0,
        unset: false,
        unread: false,
        untimely: false,
        beyond: false,
        rows: Vec::with_capacity(if MODE == ROWS { room } else { 0 }),
        edits: Vec::with_capacity(if MODE == EDITS { room } else { 0 }),
        opens: Vec::new(),
        endings: Vec::new(),
        delay: 0,
        ending: 0,
        least: FAR,
        latest: -FAR,
    };
    if MODE == EDITS {
        reader.endings.push(Vec::new());
    }
    let root = root.clamp(0, 600) as i32;
    let shape = reader.plan(1, root, root);
    if reader.refusal == 0 && reader.at != text.len() + 1 {
        reader.refusal = REFUSED_FORM;
    }
    (reader, shape)
}

impl<'a, const PAYOFF: bool, const MODE: u8> Reader<'a, PAYOFF, MODE> {
    const KINDS: [u8; 256] = kinds(PAYOFF);

    /// The first refusal stays; nothing more is found in an empty text.
    #[cold]
    #[inline(never)]
    fn refuse(&mut self, refusal: u8) {
        if self.refusal == 0 {
            self.refusal = refusal;
        }
        self.text = &[];
        self.at = 0;
    }

    /// A node's letter, or 0 where it is refused.
    #[inline(always)]
    fn letter(&mut self, kind: u8, depth: u32) -> u8 {
        let letter = match self.text.get(self.at) {
            Some(&letter) => letter,
            None => {
                self.refuse(REFUSED_FORM);
                return 0;
            }
        };
        let found = Self::KINDS[letter as usize];
        if found != kind || !matches!(self.text.get(self.at + 1), None | Some(b',')) {
            let alone = matches!(self.text.get(self.at + 1), None | Some(b','));
            self.refuse(if found == 0 || !alone {
                REFUSED_FORM
            } else {
                REFUSED_KIND
            });
            return 0;
        }
        if self.nodes == 512 || depth > 32 {
            self.refuse(if self.nodes == 512 {
                REFUSED_NODES
            } else {
                REFUSED_DEPTH
            });
            return 0;
        }
        self.nodes += 1;
        self.at += 2;
        letter
    }

    /// A number from `low` to `high`.
    #[inline(always)]
    fn number(&mut self, low: i64, high: i64) -> i64 {
        let (number, end) = number::read(self.text, self.at);
        let closed = matches!(self.text.get(end), None | Some(b','));
        if end != 0 && closed && low <= number && number <= high {
            self.at = end + 1;
            return number;
        }
        self.refuse(REFUSED_FORM);
        low.max(0)
    }

    /// A field of one digit.
    #[inline(always)]
    fn digit(&mut self, low: u8, high: u8) -> u8 {
        if let Some(&byte) = self.text.get(self.at) {
            if low <= byte
                && byte <= high
                && matches!(self.text.get(self.at + 1), None | Some(b','))
            {
                self.at += 2;
                return byte - b'0';
            }
        }
        self.refuse(REFUSED_FORM);
        0
    }

    /// What a setting comes to; one that is unset is noted.
    #[inline(always)]
    fn setting(&mut self, k: u8) -> i32 {
        self.unset |= k as usize >= self.sight.set;
        self.sight.days[(k & 7) as usize]
    }

    /// A delay, and which setting it is (8: none).
    #[inline(always)]
    fn delay(&mut self) -> (i32, u8) {
        if self.text.get(self.at) == Some(&b'P') {
            let open = self.at;
            self.at += 1;
            let k = self.digit(b'0', b'7');
            if MODE == ROWS && !PAYOFF {
                self.opens.push(open as u16);
            }
            return (self.setting(k), k);
        }
        (self.number(0, 600) as i32, 8)
    }

    /// A payoff's month: a number and up to 31 settings, lowest first.
    #[inline(always)]
    fn month(&mut self) -> i32 {
        let (number, mut end) = number::read(self.text, self.at);
        let mut month = number as i32;
        let mut right = end != 0 && (-60..=19_200).contains(&number);
        if self.text.get(end) == Some(&b'+') {
            let (sum, count, stop) = self.settings(end);
            right &= count <= 31;
            month = month.wrapping_add(sum);
            end = stop;
        }
        if !right || !matches!(self.text.get(end), None | Some(b',')) {
            self.refuse(REFUSED_FORM);
            return 0;
        }
        self.at = end + 1;
        month
    }

    /// The settings from `end` on: their sum, how many they are (more than 31 where they are out of
    /// order), and where they end. Two are read at a time.
    fn settings(&mut self, mut end: usize) -> (i32, usize, usize) {
        const MASK: u64 = 0x0000_f8ff_fff8_ffff;
        const TWO: u64 = u64::from_le_bytes(*b"+P0+P0\0\0");
        let days = &self.sight.days;
        let (mut sum, mut count, mut last) = (0i32, 0, 0);
        while let Some(&bytes) = self
            .text
            .get(end..)
            .and_then(|rest| rest.first_chunk::<8>())
        {
            let word = u64::from_le_bytes(bytes);
            if word & MASK != TWO {
                break;
            }
            let (one, two) = ((word >> 16) as usize & 7, (word >> 40) as usize & 7);
            count += if last <= one && one <= two { 2 } else { 32 };
            sum = sum.wrapping_add(days[one] + days[two]);
            last = two;
            end += 6;
        }
        while let Some(&[b'+', b'P', k @ b'0'..=b'7']) = self.text.get(end..end + 3) {
            let one = (k - b'0') as usize;
            count += if last <= one { 1 } else { 32 };
            sum = sum.wrapping_add(days[one & 7]);
            last = one;
            end += 3;
        }
        // The last is the highest.
        self.unset |= count > 0 && last >= self.sight.set;
        (sum, count, end)
    }

    #[inline(always)]
    fn row(&mut self, letter: u8, at: usize, x: i64, tag: u8) -> usize {
        if MODE == ROWS {
            self.rows.push(Row {
                x,
                at: at as u16,
                b: 0,
                c: 0,
                letter,
                tag,
            });
            self.rows.len() - 1
        } else {
            0
        }
    }

    #[inline(always)]
    fn second(&mut self, node: usize) {
        if MODE == ROWS {
            let next = self.rows.len() as u16;
            if let Some(row) = self.rows.get_mut(node) {
                row.b = next;
            }
        }
    }

    #[inline(always)]
    fn third(&mut self, node: usize) {
        if MODE == ROWS {
            let next = self.rows.len() as u16;
            if let Some(row) = self.rows.get_mut(node) {
                row.c = next;
            }
        }
    }

    #[inline(always)]
    fn edit(&mut self, from: usize, month: i32, letter: u8) {
        if MODE == EDITS {
            self.edits.push(Edit {
                from: from as u16,
                to: self.at.wrapping_sub(1) as u16,
                month,
                ending: self.ending,
                letter,
            });
        }
    }

    /// A magnitude beyond the limit is noted, and cut so that sums stay in range.
    #[inline(always)]
    fn held(&mut self, magnitude: i64) -> i64 {
        if magnitude > LIMIT {
            self.beyond = true;
            return LIMIT;
        }
        magnitude
    }

    #[inline(always)]
    fn product(&mut self, a: i64, b: i64) -> i64 {
        // Two magnitudes below 3,000,000 always fit.
        if (a | b) < 1 << 21 {
            return a * b;
        }
        let product = (a as u64 as u128) * (b as u64 as u128);
        self.held(product.min(i64::MAX as u128) as i64)
    }

    /// A plan whose root stands somewhere in the months `low` to `high`.
    fn plan(&mut self, depth: u32, low: i32, high: i32) -> Shape {
        let at = self.at;
        match self.letter(PLAN, depth) {
            b'Z' => {
                self.row(b'Z', at, 0, 0);
                NOTHING
            }
            b'T' if !PAYOFF => {
                let from = self.digit(b'1', b'9');
                let to = self.digit(b'1', b'9');
                self.row(b'T', at, self.sight.sign(from, to), 0);
                self.edit(at, self.delay, b'F');
                Shape {
                    length: 0,
                    first: 0,
                    magnitude: 1,
                }
            }
            letter @ (b'F' | b'H') if PAYOFF => {
                let month = self.month();
                let from = self.digit(b'1', b'9');
                let to = self.digit(b'1', b'9');
                let sign = self.sight.sign(from, to);
                self.row(letter, at, month as i64, sign as u8);
                self.unread |= month + low < 0 || month + high > self.sight.f;
                Shape {
                    length: 0,
                    first: 0,
                    magnitude: 1,
                }
            }
            b'S' => {
                let node = self.row(b'S', at, 0, 0);
                (self.least, self.latest) = (FAR, -FAR);
                let amount = self.amount(depth + 1);
                let latest = self.latest;
                self.unread |= self.least + low < -self.sight.h || latest + high > self.sight.f;
                self.second(node);
                let plan = self.plan(depth + 1, low, high);
                self.untimely |= latest > plan.first;
                Shape {
                    magnitude: self.product(amount, plan.magnitude),
                    ..plan
                }
            }
            b'L' if !PAYOFF => {
                let (delay, setting) = self.delay();
                self.row(b'L', at, delay as i64, 0);
                let above = (self.delay, self.ending);
                if MODE == EDITS && self.refusal == 0 {
                    self.later(at, delay, setting);
                }
                let plan = self.plan(depth + 1, low + delay, high + delay);
                (self.delay, self.ending) = above;
                Shape {
                    length: plan.length + delay,
                    first: plan.first + delay,
                    magnitude: plan.magnitude,
                }
            }
            b'B' => {
                let node = self.row(b'B', at, 0, 0);
                let one = self.plan(depth + 1, low, high);
                self.second(node);
                let two = self.plan(depth + 1, low, high);
                Shape {
                    length: one.length.max(two.length),
                    first: one.first.min(two.first),
                    magnitude: self.held(one.magnitude + two.magnitude),
                }
            }
            b'W' => {
                let (delay, _) = self.delay();
                let node = self.row(b'W', at, delay as i64, 0);
                let last = high + delay;
                (self.least, self.latest) = (FAR, -FAR);
                self.test(depth + 1);
                self.unread |=
                    self.least + low < -self.sight.h || self.latest + last > self.sight.f;
                self.untimely |= self.latest > 0;
                self.second(node);
                let one = self.plan(depth + 1, low, last);
                self.third(node);
                let two = self.plan(depth + 1, low + delay, last);
                Shape {
                    length: delay + one.length.max(two.length),
                    first: one.first.min(two.first),
                    magnitude: one.magnitude.max(two.magnitude),
                }
            }
            _ => NOTHING,
        }
    }

    /// Compiling leaves an `L` out and adds its delay to all months beneath.
    fn later(&mut self, at: usize, delay: i32, setting: u8) {
        self.edits.push(Edit {
            from: at as u16,
            to: self.at as u16,
            month: 0,
            ending: 0,
            letter: b'L',
        });
        if setting == 8 {
            self.delay += delay;
            return;
        }
        let above = &self.endings[self.ending as usize];
        let mut ending = Vec::with_capacity(above.len() + 3);
        let before = above.chunks(3).take_while(|open| open[2] <= b'0' + setting);
        let before = 3 * before.count();
        ending.extend_from_slice(&above[..before]);
        ending.extend_from_slice(&[b'+', b'P', b'0' + setting]);
        ending.extend_from_slice(&above[before..]);
        self.ending = self.endings.len() as u16;
        self.endings.push(ending);
    }

    /// Answers the magnitude.
    fn amount(&mut self, depth: u32) -> i64 {
        let at = self.at;
        match self.letter(AMOUNT, depth) {
            b'N' => {
                let number = self.number(-LIMIT, LIMIT);
                self.row(b'N', at, number, 0);
                number.abs()
            }
            b'O' => {
                let label = self.digit(b'0', b'7');
                let offset = if PAYOFF {
                    self.month()
                } else {
                    self.number(-60, 600) as i32
                };
                let months = self.sight.h + self.sight.f + 1;
                let place = label as i32 * months + self.sight.h + offset;
                self.row(b'O', at, place as i64, label);
                self.edit(at, self.delay + offset, b'O');
                self.least = self.least.min(offset);
                self.latest = self.latest.max(offset);
                match self.sight.bounds.get(label as usize) {
                    Some(&bound) => bound,
                    None => {
                        self.unread = true;
                        0
                    }
                }
            }
            letter @ (b'A' | b'U') => {
                let node = self.row(letter, at, 0, 0);
                let one = self.amount(depth + 1);
                self.second(node);
                let two = self.amount(depth + 1);
                self.held(one + two)
            }
            b'K' => {
                let node = self.row(b'K', at, 0, 0);
                let one = self.amount(depth + 1);
                self.second(node);
                let two = self.amount(depth + 1);
                self.product(one, two)
            }
            b'Q' => {
                let by = self.number(1, LIMIT);
                self.row(b'Q', at, by, 0);
                self.amount(depth + 1)
            }
            b'I' => {
                let node = self.row(b'I', at, 0, 0);
                self.test(depth + 1);
                self.second(node);
                let one = self.amount(depth + 1);
                self.third(node);
                let two = self.amount(depth + 1);
                one.max(two)
            }
            _ => 0,
        }
    }

    /// A test has no magnitude.
    fn test(&mut self, depth: u32) {
        let at = self.at;
        match self.letter(TEST, depth) {
            letter @ (b'G' | b'E') => {
                let node = self.row(letter, at, 0, 0);
                self.amount(depth + 1);
                self.second(node);
                self.amount(depth + 1);
            }
            letter @ (b'Y' | b'V') => {
                let node = self.row(letter, at, 0, 0);
                self.test(depth + 1);
                self.second(node);
                self.test(depth + 1);
            }
            b'R' => {
                self.row(b'R', at, 0, 0);
                self.test(depth + 1);
            }
            _ => {}
        }
    }
}
