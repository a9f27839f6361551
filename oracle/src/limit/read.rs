//! Reading into instructions of eight bytes. Line ends are found 64 bytes at a time, ahead of reading; variables are looked up,
//! numbers read four or eight digits at once, and faults joined, so that jumps go by kinds of statements and operands alone.

use crate::machine::{Values, VALUES};
use crate::program::{LARGEST, MOST_LINES, VARIABLES};
use std::mem::MaybeUninit;

// What an instruction does, in the order of the kinds of prices.
pub const READ: u8 = 0;
pub const WRITE: u8 = 1;
pub const SKIP: u8 = 2;
pub const BRANCH: u8 = 3;
pub const COPY: u8 = 4;
pub const PLUS: u8 = 5;
pub const MINUS: u8 = 6;
pub const TIMES: u8 = 7;
pub const LESS: u8 = 8;
pub const EQUAL: u8 = 9;
pub const DIVIDE: u8 = 10;

/// A statement: `a` and `b` are places of operands in the file, or targets, counted from 0.
#[derive(Clone, Copy)]
#[repr(C, align(8))]
pub struct Instruction {
    pub code: u8,
    pub x: u8,
    pub a: u16,
    pub b: u16,
    /// The code that a step of a stretch goes by, with those behind it.
    pub joined: u16,
}

impl Instruction {
    #[inline(always)]
    pub fn new(code: u8, x: u8, a: u16, b: u16) -> Instruction {
        Instruction { code, x, a, b, joined: 0 }
    }
}

/// The place of the input, behind those of the variables, and that of the first constant.
pub const INPUT: usize = VALUES;
pub const CONSTANTS: usize = INPUT + 1;

/// From a line's start so many bytes can be looked at; no spelling has more, nor does reading go farther.
pub const WINDOW: usize = 64;

/// Ends are found of so many bytes, then their lines are read.
const BLOCK: usize = 16 * WINDOW;

/// So many lines have room: one more than the most, and those of a block. Further blocks come in the place of that one.
pub const LINES: usize = MOST_LINES + 1 + BLOCK;

/// All places: two constants for each line of a program that is taken, and then of a list, or of a program that isn't yet.
const PLACES: usize = CONSTANTS + 2 * MOST_LINES + 2 * LINES;

/// Ends are put down so many at once.
const AT_ONCE: usize = 6;

/// A bit of an entry for what isn't spelled so, and of one for a variable of two digits.
const WRONG: u8 = 0x80;
const TWO_DIGITS: u8 = 0x40;

/// Variables by two bytes behind `i`, the second of which is the next thing's where there is one digit. Few of its lines are used.
static VARIABLE: [u8; 1 << 16] = variables();

const fn variables() -> [u8; 1 << 16] {
    let mut table = [WRONG; 1 << 16];
    let mut value = 0;
    while value < 10 {
        let mut next = 0;
        while next < 256 {
            if next < b'0' as usize || next > b'9' as usize {
                table[(b'0' as usize + value) | (next << 8)] = value as u8;
            }
            next += 1;
        }
        value += 1;
    }
    while value < VARIABLES as usize {
        let (first, second) = (b'0' as usize + value / 10, b'0' as usize + value % 10);
        table[first | (second << 8)] = value as u8 | TWO_DIGITS;
        value += 1;
    }
    table
}

/// Codes by the byte of an operator.
static OPERATOR: [u8; 256] = operators();

const fn operators() -> [u8; 256] {
    let mut table = [WRONG; 256];
    table[b'+' as usize] = PLUS;
    table[b'-' as usize] = MINUS;
    table[b'*' as usize] = TIMES;
    table[b'<' as usize] = LESS;
    table[b'=' as usize] = EQUAL;
    table[b'/' as usize] = DIVIDE;
    table
}

/// An array of which nothing is set. One that is made item by item is cleared by today's compiler.
#[inline(always)]
pub fn unset<T, const N: usize>() -> [MaybeUninit<T>; N] {
    // SAFETY: an item that needn't be set may be anything.
    unsafe { MaybeUninit::<[MaybeUninit<T>; N]>::uninit().assume_init() }
}

/// Items all of which are set.
///
/// # Safety
/// They are.
#[inline(always)]
pub unsafe fn as_set<T>(items: &[MaybeUninit<T>]) -> &[T] {
    &*(items as *const [MaybeUninit<T>] as *const [T])
}

/// A text, and its last bytes with zeros behind them.
#[derive(Clone, Copy)]
pub struct Source<'a> {
    text: &'a [u8],
    tail: &'a [u8; 2 * WINDOW],
    tail_start: usize,
}

/// What a text's last bytes are put into.
pub type Tail = [u8; 2 * WINDOW];

pub const EMPTY_TAIL: Tail = [0; 2 * WINDOW];

impl<'a> Source<'a> {
    #[inline(always)]
    pub fn new(text: &'a [u8], tail: &'a mut Tail) -> Source<'a> {
        let tail_start = text.len().saturating_sub(WINDOW);
        tail[..text.len() - tail_start].copy_from_slice(&text[tail_start..]);
        Source { text, tail, tail_start }
    }

    /// What stands from a place of the text on.
    #[inline(always)]
    pub fn window(self, start: usize) -> Window<'a> {
        debug_assert!(start < self.text.len());
        let tail = self.tail.as_ptr().wrapping_sub(self.tail_start);
        let bytes = if start < self.tail_start { self.text.as_ptr() } else { tail };
        // SAFETY: before the tail's start the text has as many bytes more as the window; the tail has no more than that many from
        // its start to the text's end, and as many more behind it.
        Window { bytes: unsafe { &*bytes.wrapping_add(start).cast::<[u8; WINDOW]>() } }
    }
}

#[derive(Clone, Copy)]
pub struct Window<'a> {
    bytes: &'a [u8; WINDOW],
}

impl<'a> Window<'a> {
    #[inline(always)]
    pub fn new(bytes: &'a [u8; WINDOW]) -> Window<'a> {
        Window { bytes }
    }

    #[inline(always)]
    pub fn eight(&self, at: usize) -> u64 {
        debug_assert!(at + 8 <= WINDOW);
        // SAFETY: reading stays within 56 bytes of the start: it passes at most 3 bytes of a variable, 11 of a number and 7 of a
        // word at once, whatever it finds. A statement has at most 38, within `stmt` 43, a mark 53.
        u64::from_le(unsafe { self.bytes.as_ptr().add(at).cast::<u64>().read_unaligned() })
    }

    #[inline(always)]
    pub fn four(&self, at: usize) -> u32 {
        self.eight(at) as u32
    }

    /// A bit for each byte 10.
    #[inline(always)]
    fn ends(&self) -> u64 {
        self.places_of(10)
    }

    /// A bit for each place of this byte.
    #[cfg(target_arch = "x86_64")]
    #[inline(always)]
    pub fn places_of(&self, byte: u8) -> u64 {
        use std::arch::x86_64::{
            __m128i, _mm_cmpeq_epi8, _mm_loadu_si128, _mm_movemask_epi8, _mm_set1_epi8,
        };
        let (mut ends, mut at) = (0, 0);
        while at < WINDOW {
            // SAFETY: 16 bytes from `at` on are the window's, and every such processor has SSE2.
            let found = unsafe {
                let bytes = _mm_loadu_si128(self.bytes.as_ptr().add(at).cast::<__m128i>());
                _mm_movemask_epi8(_mm_cmpeq_epi8(bytes, _mm_set1_epi8(byte as i8)))
            };
            ends |= (found as u64) << at;
            at += 16;
        }
        ends
    }

    #[cfg(not(target_arch = "x86_64"))]
    #[inline(always)]
    pub fn places_of(&self, byte: u8) -> u64 {
        self.plain_places_of(byte)
    }

    /// The same eight bytes at a time, where there is no wider comparison.
    #[cfg(any(test, not(target_arch = "x86_64")))]
    fn plain_places_of(&self, byte: u8) -> u64 {
        const LOW: u64 = 0x7f7f_7f7f_7f7f_7f7f;
        (0..WINDOW).step_by(8).fold(0, |ends, at| {
            let rest = self.eight(at) ^ (u64::from(byte) * 0x0101_0101_0101_0101);
            let zeros = !(((rest & LOW) + LOW) | rest | LOW);
            ends | ((zeros >> 7).wrapping_mul(0x0102_0408_1020_4080) >> 56) << at
        })
    }
}

/// The front of a text in the low bytes of a number.
pub const fn word(text: &[u8]) -> u64 {
    let (mut word, mut at) = (0, text.len());
    while at > 0 {
        at -= 1;
        word = word << 8 | text[at] as u64;
    }
    word
}

const SKIP_WORD: u32 = word(b"skip") as u32;
const READ_WORD: u64 = word(b"read i");
const WRITE_WORD: u64 = word(b"write i");
const IF_WORD: u32 = word(b"if i") as u32;
const BECOMES_WORD: u32 = word(b" := ") as u32;
const GOTO_WORD: u64 = word(b" goto ");
const ELSE_WORD: u64 = word(b" else ");
pub const FIVE_BYTES: u64 = (1 << 40) - 1;
pub const SIX_BYTES: u64 = (1 << 48) - 1;
pub const SEVEN_BYTES: u64 = (1 << 56) - 1;

/// The values of variables, the input and constants, by their places.
pub type File = [MaybeUninit<u32>; PLACES];

/// What statements, and what they are made of, are read into. It is small, so that it is held in registers while a text is read.
pub struct Words<'a> {
    file: &'a mut File,
    pub filled: usize,
    /// Not 0 where something isn't spelled.
    pub wrong: u64,
    /// The largest target less 2; one below 2 is larger than any.
    pub farthest: u32,
    reads: u32,
    writes: u32,
}

impl<'a> Words<'a> {
    /// Constants are put from this place on.
    #[inline(always)]
    pub fn new(file: &'a mut File, filled: usize) -> Words<'a> {
        Words { file, filled, wrong: 0, farthest: 0, reads: 0, writes: 0 }
    }

    /// The number at a place, up to this one, and the place behind it.
    #[inline(always)]
    pub fn number(&mut self, line: Window, at: usize, most: u32) -> (u32, usize) {
        let digits = line.four(at) ^ 0x3030_3030;
        let others = (digits.wrapping_add(0x7676_7676) | digits) & 0x8080_8080;
        if others == 0 {
            return self.long_number(line, at, most);
        }
        let bits = others.trailing_zeros() & !7;
        // The last digit comes to the last byte, behind zeros.
        let ones = digits.wrapping_shl(32 - bits);
        let tens = (ones.wrapping_mul(10 << 8 | 1) >> 8) & 0x00ff_00ff;
        let value = tens.wrapping_mul(100 << 16 | 1) >> 16;
        self.wrong |= u64::from((bits == 0) | (digits as u8 == 0) & (bits > 8));
        (value, at + bits as usize / 8)
    }

    /// The same where four digits stand there, of up to ten: eight at once, the rest one by one.
    #[inline(always)]
    fn long_number(&mut self, line: Window, at: usize, most: u32) -> (u32, usize) {
        let digits = line.eight(at) ^ 0x3030_3030_3030_3030;
        let others = (digits.wrapping_add(0x7676_7676_7676_7676) | digits) & 0x8080_8080_8080_8080;
        let bits = others.trailing_zeros() & !7;
        let ones = digits.wrapping_shl(64 - bits);
        let tens = (ones.wrapping_mul(10 << 8 | 1) >> 8) & 0x00ff_00ff_00ff_00ff;
        let hundreds = (tens.wrapping_mul(100 << 16 | 1) >> 16) & 0x0000_ffff_0000_ffff;
        let mut value = hundreds.wrapping_mul(10_000 << 32 | 1) >> 32;
        let mut length = bits as usize / 8;
        if length == 8 {
            for _ in 0..2 {
                let digit = (line.four(at + length) as u8).wrapping_sub(b'0');
                if digit > 9 {
                    break;
                }
                value = 10 * value + u64::from(digit);
                length += 1;
            }
        }
        self.wrong |= u64::from((digits as u8 == 0) | (value > u64::from(most)));
        (value as u32, at + length)
    }

    /// The variable at a place whose first byte is known, and the place behind it.
    #[inline(always)]
    pub fn variable(&mut self, line: Window, at: usize) -> (u8, usize) {
        let entry = VARIABLE[usize::from(line.four(at + 1) as u16)];
        self.wrong |= u64::from(entry & WRONG);
        (entry & (TWO_DIGITS - 1), at + 2 + usize::from(entry / TWO_DIGITS % 2))
    }

    /// The place of the operand that stands here, and the place behind it.
    #[inline(always)]
    pub fn operand(&mut self, line: Window, at: usize) -> (u16, usize) {
        let first = line.four(at) as u8;
        if first == b'i' {
            let (x, at) = self.variable(line, at);
            return (u16::from(x), at);
        }
        let below = first == b'-';
        let most = LARGEST + u32::from(below);
        let (value, at) = self.number(line, at + usize::from(below), most);
        self.wrong |= u64::from(below & (value == 0));
        let place = self.filled;
        let value = if below { value.wrapping_neg() } else { value };
        debug_assert!(place < PLACES);
        // SAFETY: at a block's start there is room for as many lines as it has bytes, with two constants each; and a
        // condition has fewer constants than bytes.
        unsafe { *self.file.get_unchecked_mut(place) = MaybeUninit::new(value) };
        self.filled += 1;
        (place as u16, at)
    }

    #[inline(always)]
    fn target(&mut self, line: Window, at: usize) -> (u16, usize) {
        let (value, at) = self.number(line, at, LARGEST);
        self.farthest = self.farthest.max(value.wrapping_sub(2));
        ((value as u16).wrapping_sub(1), at)
    }

    #[inline(always)]
    fn branch(&mut self, line: Window, at: usize, head: u32) -> (Instruction, usize) {
        let (x, at) = self.variable(line, at + 3);
        let goto = line.eight(at) ^ GOTO_WORD;
        let (a, at) = self.target(line, at + 6);
        let otherwise = line.eight(at) ^ ELSE_WORD;
        let (b, at) = self.target(line, at + 6);
        self.wrong |= (goto | otherwise) & SIX_BYTES | u64::from(head ^ IF_WORD);
        (Instruction::new(BRANCH, x, a, b), at)
    }

    /// A right side: its code, and the places of its operands.
    #[inline(always)]
    pub fn right(&mut self, line: Window, at: usize) -> (u8, [u16; 2], usize) {
        let (a, at) = self.operand(line, at);
        let sign = line.four(at);
        if sign as u8 != b' ' {
            return (COPY, [a, 0], at);
        }
        let code = OPERATOR[usize::from((sign >> 8) as u8)];
        self.wrong |= u64::from(code & WRONG) | u64::from((sign >> 16) as u8 ^ b' ');
        let (b, at) = self.operand(line, at + 3);
        (code, [a, b], at)
    }

    #[inline(always)]
    fn assignment(&mut self, line: Window, at: usize) -> (Instruction, usize) {
        let (x, at) = self.variable(line, at);
        self.wrong |= u64::from(line.four(at) ^ BECOMES_WORD);
        let (code, [a, b], at) = self.right(line, at + 4);
        (Instruction::new(code, x, a, b), at)
    }

    /// `read` or `write`, of which a program has one each.
    #[inline(always)]
    fn edge(&mut self, line: Window, at: usize) -> (Instruction, usize) {
        let head = line.eight(at);
        if head & SIX_BYTES == READ_WORD {
            self.reads += 1;
            let (x, at) = self.variable(line, at + 5);
            return (Instruction::new(READ, x, INPUT as u16, 0), at);
        }
        self.wrong |= head & SEVEN_BYTES ^ WRITE_WORD;
        self.writes += 1;
        let (x, at) = self.variable(line, at + 6);
        (Instruction::new(WRITE, x, 0, 0), at)
    }

    /// The statement at a place, and the place behind it.
    #[inline(always)]
    pub fn statement(&mut self, line: Window, at: usize) -> (Instruction, usize) {
        let head = line.four(at);
        if head as u8 == b'i' {
            if (head >> 8) as u8 == b'f' {
                self.branch(line, at, head)
            } else {
                self.assignment(line, at)
            }
        } else if head == SKIP_WORD {
            (Instruction::new(SKIP, 0, 0, 0), at + 4)
        } else {
            self.edge(line, at)
        }
    }
}

/// What lines are read into.
pub trait Lines {
    /// Before a block: room for as many lines as it has bytes, once there are more than the most.
    fn make_room(&mut self);

    /// Reads the line that ends so many bytes from here, and at this place of the text.
    fn line(&mut self, line: Window, end: usize, place: usize);

    /// Whether one isn't spelled.
    fn is_wrong(&self) -> bool;
}

/// Reads all lines; whether each is spelled.
#[inline(always)]
pub fn read_lines(lines: &mut impl Lines, source: Source) -> bool {
    let mut ends = unset::<u16, { BLOCK + AT_ONCE }>();
    let (mut start, mut block) = (0, 0);
    while block < source.text.len() {
        lines.make_room();
        let (mut count, mut from) = (0, 0);
        while from < BLOCK && block + from < source.text.len() {
            let mut found = source.window(block + from).ends();
            let (all, mut put) = (found.count_ones() as usize, count);
            while found != 0 {
                for place in &mut ends[put..put + AT_ONCE] {
                    let last = (found | 1 << 63).trailing_zeros();
                    *place = MaybeUninit::new(from as u16 + last as u16);
                    found &= found.wrapping_sub(1);
                }
                put += AT_ONCE;
            }
            count += all;
            from += WINDOW;
        }
        for end in &ends[..count] {
            // SAFETY: so many ends were put down.
            let end = block + usize::from(unsafe { end.assume_init() });
            lines.line(source.window(start), end - start, end);
            start = end + 1;
        }
        if lines.is_wrong() {
            return false;
        }
        block += BLOCK;
    }
    start == source.text.len()
}

/// What a program's lines are read into, with their ends where these are asked for.
struct Reader<'a, const ENDS: bool> {
    words: Words<'a>,
    instructions: &'a mut [MaybeUninit<Instruction>; LINES],
    ends: &'a mut [MaybeUninit<u16>; LINES],
    count: usize,
}

impl<const ENDS: bool> Lines for Reader<'_, ENDS> {
    #[inline(always)]
    fn make_room(&mut self) {
        if self.count > MOST_LINES {
            (self.count, self.words.filled) = (MOST_LINES + 1, CONSTANTS);
        }
    }

    #[inline(always)]
    fn line(&mut self, line: Window, end: usize, place: usize) {
        let (instruction, at) = self.words.statement(line, 0);
        self.words.wrong |= (at ^ end) as u64;
        debug_assert!(self.count < LINES);
        // SAFETY: as with constants.
        unsafe {
            *self.instructions.get_unchecked_mut(self.count) = MaybeUninit::new(instruction);
            if ENDS {
                *self.ends.get_unchecked_mut(self.count) = MaybeUninit::new(place as u16);
            }
        }
        self.count += 1;
    }

    #[inline(always)]
    fn is_wrong(&self) -> bool {
        self.words.wrong != 0
    }
}

/// A program that is taken, with the values that its run starts from.
pub struct Program {
    instructions: [MaybeUninit<Instruction>; LINES],
    ends: [MaybeUninit<u16>; LINES],
    count: usize,
    file: File,
    filled: usize,
}

impl Program {
    #[inline(always)]
    pub fn empty() -> Program {
        Program { instructions: unset(), ends: unset(), count: 0, file: unset(), filled: 0 }
    }

    /// Fills an empty program; or the refusal, 2 to 5.
    pub fn read(&mut self, text: &[u8], values: &Values, input: u32) -> Result<(), u8> {
        self.read_with::<false>(text, values, input)
    }

    /// The same, with the ends of its lines.
    pub fn read_with_ends(&mut self, text: &[u8], values: &Values) -> Result<(), u8> {
        self.read_with::<true>(text, values, 0)
    }

    #[inline(always)]
    fn read_with<const ENDS: bool>(
        &mut self,
        text: &[u8],
        values: &Values,
        input: u32,
    ) -> Result<(), u8> {
        let mut reader = Reader::<ENDS> {
            words: Words::new(&mut self.file, CONSTANTS),
            instructions: &mut self.instructions,
            ends: &mut self.ends,
            count: 0,
        };
        let mut tail = EMPTY_TAIL;
        if !read_lines(&mut reader, Source::new(text, &mut tail)) {
            return Err(2);
        }
        let Reader { words: Words { filled, farthest, reads, writes, .. }, count, .. } = reader;
        if !(2..=MOST_LINES).contains(&count) {
            return Err(3);
        }
        for (place, &value) in self.file.iter_mut().zip(values) {
            *place = MaybeUninit::new(value);
        }
        self.file[INPUT] = MaybeUninit::new(input);
        (self.count, self.filled) = (count, filled);
        let (instructions, _) = self.parts();
        if reads != 1 || writes != 1 {
            return Err(4);
        }
        if instructions[0].code != READ || instructions[count - 1].code != WRITE {
            return Err(4);
        }
        if farthest > count as u32 - 2 {
            return Err(5);
        }
        Ok(())
    }

    /// What further constants are read into, behind those of the program.
    #[inline(always)]
    pub fn words(&mut self) -> Words<'_> {
        Words::new(&mut self.file, self.filled)
    }

    /// Takes the constants up to a place that was read to.
    pub fn fill_to(&mut self, filled: usize) {
        self.filled = filled;
    }

    pub fn count(&self) -> usize {
        self.count
    }

    /// The instructions, the file, and where lines end, if the program was read with ends.
    pub fn lines(&self) -> (&[Instruction], &[u32], &[u16]) {
        // SAFETY: as in `parts`; and an end was put down for each line.
        unsafe {
            (
                as_set(&self.instructions[..self.count]),
                as_set(&self.file[..self.filled]),
                as_set(&self.ends[..self.count]),
            )
        }
    }

    /// The instructions, and the file: variables, input, constants.
    pub fn parts(&mut self) -> (&[Instruction], &mut [u32]) {
        let (instructions, file) =
            (&self.instructions[..self.count], &mut self.file[..self.filled]);
        // SAFETY: `read` puts down an instruction for each of the lines that it counts, the variables and the input, and every
        // constant up to the place that it has filled.
        unsafe { (as_set(instructions), &mut *(file as *mut [MaybeUninit<u32>] as *mut [u32])) }
    }
}

#[cfg(test)]
mod tests {
    use super::*;
    use crate::generate::Random;

    #[test]
    fn ends_are_found_either_way() {
        let random = &mut Random::new(310);
        for _ in 0..20_000 {
            let near = random.pick(&[[9, 10, 11], [0, 10, 138], [10, 10, 255]]);
            let bytes: [u8; WINDOW] = std::array::from_fn(|_| random.pick(&near));
            let window = Window { bytes: &bytes };
            let wanted = (0..WINDOW).filter(|&at| bytes[at] == 10).fold(0, |set, at| set | 1 << at);
            assert_eq!((window.ends(), window.plain_places_of(10)), (wanted, wanted), "{bytes:?}");
        }
    }
}
