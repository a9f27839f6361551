//! Runs in two ways: step by step, and, once a run has made more steps than its program has statements, by stretches, each up to
//! the next jump: its steps and ticks are added at once, `skip` is left out, and two steps and a jump behind them go by one code.

use super::read::{self, unset, Instruction, Program, INPUT};
use crate::machine::{kept_of, Outcome, Values, LARGEST_BUDGET, VALUES};
use crate::pricing::{in_force, Prices, KINDS};
use crate::program::MOST_LINES;
use std::hint::unreachable_unchecked;
use std::mem::MaybeUninit;
use std::sync::atomic::{compiler_fence, Ordering};

/// Steps and ticks in one number, which are added and compared at once: steps from this bit on.
const STEP_BIT: u32 = 40;
const TICKS: u64 = (1 << STEP_BIT) - 1;

/// A run is made by stretches once it has made so many steps for each statement.
const STEPS_BEFORE: u32 = 2;

/// Where a run stands, and what it has taken.
#[derive(Clone, Copy)]
struct Place {
    at: usize,
    taken: u64,
}

impl Place {
    fn steps(&self) -> u32 {
        (self.taken >> STEP_BIT) as u32
    }

    fn ticks(&self) -> u64 {
        self.taken & TICKS
    }

    fn fault(&self) -> Outcome {
        Outcome::Fault { statement: self.at as u32 + 1, steps: self.steps(), ticks: self.ticks() }
    }

    fn ended(&self, value: u32, file: &[u32]) -> Outcome {
        let kept = kept_of(&variables(file));
        Outcome::Ended { value: value as i32, steps: self.steps(), kept, ticks: self.ticks() }
    }
}

fn variables(file: &[u32]) -> Values {
    file[..VALUES].try_into().expect("so many values")
}

/// The value at a place of the file.
macro_rules! at {
    ($file:ident, $place:expr) => {{
        debug_assert!(usize::from($place) < $file.len());
        // SAFETY: a place of an instruction is that of a variable, of the input, or of a constant that was put down.
        unsafe { *$file.get_unchecked(usize::from($place)) }
    }};
}

/// What an instruction assigns by its operands' values; or where it divides by 0, what is done.
macro_rules! value {
    (Copy, $a:expr, $b:expr, $fault:expr) => {
        $a
    };
    (Plus, $a:expr, $b:expr, $fault:expr) => {
        $a.wrapping_add($b)
    };
    (Minus, $a:expr, $b:expr, $fault:expr) => {
        $a.wrapping_sub($b)
    };
    (Times, $a:expr, $b:expr, $fault:expr) => {
        $a.wrapping_mul($b)
    };
    (Less, $a:expr, $b:expr, $fault:expr) => {
        u32::from(($a as i32) < $b as i32)
    };
    (Equal, $a:expr, $b:expr, $fault:expr) => {
        u32::from($a == $b)
    };
    (Divide, $a:expr, $b:expr, $fault:expr) => {{
        let divisor = $b as i32;
        if divisor == 0 {
            return $fault;
        }
        ($a as i32).wrapping_div(divisor) as u32
    }};
}

/// Runs step by step until so many steps are made, or answers.
fn step_on(
    instructions: &[Instruction],
    file: &mut [u32],
    prices: &[u64; KINDS],
    place: &mut Place,
    until: u32,
) -> Option<Outcome> {
    for _ in place.steps()..until {
        let step = instructions[place.at];
        place.taken += prices[usize::from(step.code)];
        macro_rules! value_by {
            ($code:ident) => {
                value!($code, at!(file, step.a), at!(file, step.b), Some(place.fault()))
            };
        }
        let value = match step.code {
            read::SKIP => {
                place.at += 1;
                continue;
            }
            read::BRANCH => {
                let target = if at!(file, step.x) != 0 { step.a } else { step.b };
                place.at = usize::from(target);
                continue;
            }
            read::WRITE => return Some(place.ended(at!(file, step.x), file)),
            read::PLUS => value_by!(Plus),
            read::MINUS => value_by!(Minus),
            read::TIMES => value_by!(Times),
            read::LESS => value_by!(Less),
            read::EQUAL => value_by!(Equal),
            read::DIVIDE => value_by!(Divide),
            _ => value_by!(Copy),
        };
        file[usize::from(step.x)] = value;
        place.at += 1;
    }
    None
}

// What a step of a stretch does. Those from JUMP on end one.
const COPY: u8 = 0;
const JUMP: u8 = 7;
const BRANCH: u8 = 8;
const WRITE: u8 = 9;

/// A step's code among those of stretches; `skip` has none.
fn code_of(step: &Instruction) -> u8 {
    match step.code {
        read::WRITE => WRITE,
        read::BRANCH if step.a == step.b => JUMP,
        read::BRANCH => BRANCH,
        read::READ | read::COPY => COPY,
        operator => operator - read::COPY,
    }
}

/// A step goes by the codes of itself and of the two behind it: what it does, what the second does or that it isn't performed
/// with it, and what comes behind: neither, a jump, a branch. Pairs of which the second uses what the first assigns have codes
/// of their own.
const SECONDS: u16 = JUMP as u16 + 1;
const ENDS: u16 = 3;
const ONLY_JUMP: u16 = SECONDS * ENDS * JUMP as u16;
const ONLY_BRANCH: u16 = ONLY_JUMP + 1;
const ONLY_WRITE: u16 = ONLY_JUMP + 2;
const USING: u16 = ONLY_JUMP + 3;

fn joined_code([code, next, behind]: [u8; 3], is_used: bool) -> u16 {
    let end = |code: u8| match code {
        JUMP => 1,
        BRANCH => 2,
        _ => 0,
    };
    let (first, second) = (u16::from(code), u16::from(next));
    match (code, next) {
        (JUMP..=WRITE, _) => ONLY_JUMP + u16::from(code - JUMP),
        (_, JUMP..=WRITE) => ENDS * (SECONDS * first + SECONDS - 1) + end(next),
        _ if is_used => USING + ENDS * ((SECONDS - 1) * first + second) + end(behind),
        _ => ENDS * (SECONDS * first + second) + end(behind),
    }
}

/// A program's stretches. Steps stand at the end of the array, in the order of statements, without `skip`.
struct Stretches {
    /// By step: its code joined with those behind it. Targets are steps.
    steps: [MaybeUninit<Instruction>; MOST_LINES],
    first: usize,
    /// By step that jumps: what is taken from either target to the end of its stretch.
    taken: [MaybeUninit<[u64; 2]>; MOST_LINES],
    /// By step: its statement.
    statement: [MaybeUninit<u16>; MOST_LINES],
    /// By statement: its step, or the next; what is taken from here to the end of its stretch.
    step: [MaybeUninit<u16>; MOST_LINES],
    to_end: [MaybeUninit<u64>; MOST_LINES],
}

/// Item of an array of which this one is set.
macro_rules! set {
    ($items:expr, $at:expr) => {{
        debug_assert!($at < $items.len());
        // SAFETY: `Stretches::fill` sets the items of all steps from `first` on, those of jumps for each jump, and those of all
        // statements.
        unsafe { $items.get_unchecked($at).assume_init() }
    }};
}

impl Stretches {
    #[inline(always)]
    fn new() -> Stretches {
        Stretches {
            steps: unset(),
            first: MOST_LINES,
            taken: unset(),
            statement: unset(),
            step: unset(),
            to_end: unset(),
        }
    }

    fn fill(&mut self, instructions: &[Instruction], prices: &[u64; KINDS]) {
        let (mut to_end, mut next, mut behind, mut used) = (0, WRITE, WRITE, [0; 2]);
        for (at, &step) in instructions.iter().enumerate().rev() {
            let price = prices[usize::from(step.code)];
            if step.code == read::SKIP {
                to_end += price;
            } else {
                let code = code_of(&step);
                to_end = if code < JUMP { to_end + price } else { price };
                self.first -= 1;
                let is_used = used.contains(&u16::from(step.x));
                let joined = joined_code([code, next, behind], is_used);
                self.steps[self.first] = MaybeUninit::new(Instruction { joined, ..step });
                self.statement[self.first] = MaybeUninit::new(at as u16);
                (next, behind, used) = (code, next, [step.a, step.b]);
            }
            self.step[at] = MaybeUninit::new(self.first as u16);
            self.to_end[at] = MaybeUninit::new(to_end);
        }
        for at in self.first..MOST_LINES {
            let step = set!(self.steps, at);
            if step.code == read::BRANCH {
                let [a, b] = [step.a, step.b].map(|target| self.way(instructions, target));
                self.steps[at] = MaybeUninit::new(Instruction { a: a.0, b: b.0, ..step });
                self.taken[at] = MaybeUninit::new([a.1, b.1]);
            }
        }
    }

    /// The step to which a jump to this statement leads, and what is taken from the statement to the end of its stretch. Where
    /// nothing but another jump stands there, that is made with it.
    fn way(&self, instructions: &[Instruction], target: u16) -> (u16, u64) {
        let target = usize::from(target);
        let (step, taken) = (set!(self.step, target), set!(self.to_end, target));
        if set!(self.steps, usize::from(step)).joined != ONLY_JUMP {
            return (step, taken);
        }
        let jump = instructions[usize::from(set!(self.statement, usize::from(step)))];
        let target = usize::from(jump.a);
        (set!(self.step, target), taken + set!(self.to_end, target))
    }

    /// Runs by stretches while the budget has room for the next, or answers.
    fn run(
        &self,
        instructions: &[Instruction],
        file: &mut [u32],
        place: &mut Place,
        budget: u32,
    ) -> Option<Outcome> {
        let most = u64::from(budget) << STEP_BIT | TICKS;
        let mut at = usize::from(set!(self.step, place.at));
        let mut taken = place.taken + set!(self.to_end, place.at);
        if taken > most {
            return None;
        }
        // Where the step divides by 0: what the rest of its stretch would take is given back.
        let fault = |taken: u64, at: usize| {
            let at = usize::from(set!(self.statement, at));
            let place = Place { at, taken: taken - set!(self.to_end, at + 1) };
            Some(place.fault())
        };
        macro_rules! step {
            (Jump, $ahead:literal) => {
                step!(to 0, a, $ahead)
            };
            (Branch, $ahead:literal) => {
                let step = set!(self.steps, at + $ahead);
                if at!(file, step.x) != 0 {
                    // Keeps this a jump, which is foretold, where a chosen value would be waited for.
                    compiler_fence(Ordering::SeqCst);
                    step!(to 0, a, $ahead)
                } else {
                    step!(to 1, b, $ahead)
                }
            };
            (Write, $ahead:literal) => {
                let step = set!(self.steps, at + $ahead);
                return Some(Place { at, taken }.ended(at!(file, step.x), file));
            };
            (to $side:literal, $target:ident, $ahead:literal) => {{
                let further = taken + set!(self.taken, at + $ahead)[$side];
                if further > most {
                    let jump = instructions[usize::from(set!(self.statement, at + $ahead))];
                    *place = Place { at: usize::from(jump.$target), taken };
                    return None;
                }
                taken = further;
                at = usize::from(set!(self.steps, at + $ahead).$target);
            }};
            ($first:ident by $second:ident) => {
                let (one, other) = (set!(self.steps, at), set!(self.steps, at + 1));
                let value = value!($first, at!(file, one.a), at!(file, one.b), fault(taken, at));
                step!(one = value);
                // What was just assigned isn't waited for.
                macro_rules! after {
                    ($place:expr) => {
                        if $place == u16::from(one.x) {
                            compiler_fence(Ordering::SeqCst);
                            value
                        } else {
                            at!(file, $place)
                        }
                    };
                }
                let value =
                    value!($second, after!(other.a), after!(other.b), fault(taken, at + 1));
                step!(other = value);
            };
            ($code:ident, $ahead:literal) => {
                let step = set!(self.steps, at + $ahead);
                let value =
                    value!($code, at!(file, step.a), at!(file, step.b), fault(taken, at + $ahead));
                step!(step = value);
            };
            ($step:ident = $value:ident) => {
                // SAFETY: the file has the values of all variables.
                unsafe { *file.get_unchecked_mut(usize::from($step.x)) = $value };
            };
        }
        // The codes of a first step with each second one, and alone: neither jump nor branch behind them, a jump, a branch. Then
        // those with a second one that uses what the first assigns.
        macro_rules! dispatch {
            ($($first:ident: $($second:ident $on:literal $jump:literal $branch:literal),*;
                $alone:literal $alone_jump:literal $alone_branch:literal;)* =>
                $($one:ident: $($by:ident $by_on:literal $by_jump:literal $by_branch:literal),*;)*) => {
                match set!(self.steps, at).joined {
                    $(
                        $(
                            $on => { step!($first, 0); step!($second, 1); at += 2; }
                            $jump => { step!($first, 0); step!($second, 1); step!(Jump, 2); }
                            $branch => { step!($first, 0); step!($second, 1); step!(Branch, 2); }
                        )*
                        $alone => { step!($first, 0); at += 1; }
                        $alone_jump => { step!($first, 0); step!(Jump, 1); }
                        $alone_branch => { step!($first, 0); step!(Branch, 1); }
                    )*
                    $($(
                        $by_on => { step!($one by $by); at += 2; }
                        $by_jump => { step!($one by $by); step!(Jump, 2); }
                        $by_branch => { step!($one by $by); step!(Branch, 2); }
                    )*)*
                    ONLY_JUMP => { step!(Jump, 0); }
                    ONLY_BRANCH => { step!(Branch, 0); }
                    ONLY_WRITE => { step!(Write, 0); }
                    // SAFETY: `fill` makes no other code.
                    _ => unsafe { unreachable_unchecked() },
                }
            };
        }
        loop {
            dispatch! {
                Copy: Copy 0 1 2, Plus 3 4 5, Minus 6 7 8, Times 9 10 11, Less 12 13 14, Equal 15 16 17, Divide 18 19 20; 21 22 23;
                Plus: Copy 24 25 26, Plus 27 28 29, Minus 30 31 32, Times 33 34 35, Less 36 37 38, Equal 39 40 41, Divide 42 43 44; 45 46 47;
                Minus: Copy 48 49 50, Plus 51 52 53, Minus 54 55 56, Times 57 58 59, Less 60 61 62, Equal 63 64 65, Divide 66 67 68; 69 70 71;
                Times: Copy 72 73 74, Plus 75 76 77, Minus 78 79 80, Times 81 82 83, Less 84 85 86, Equal 87 88 89, Divide 90 91 92; 93 94 95;
                Less: Copy 96 97 98, Plus 99 100 101, Minus 102 103 104, Times 105 106 107, Less 108 109 110, Equal 111 112 113, Divide 114 115 116; 117 118 119;
                Equal: Copy 120 121 122, Plus 123 124 125, Minus 126 127 128, Times 129 130 131, Less 132 133 134, Equal 135 136 137, Divide 138 139 140; 141 142 143;
                Divide: Copy 144 145 146, Plus 147 148 149, Minus 150 151 152, Times 153 154 155, Less 156 157 158, Equal 159 160 161, Divide 162 163 164; 165 166 167;
                =>
                Copy: Copy 171 172 173, Plus 174 175 176, Minus 177 178 179, Times 180 181 182, Less 183 184 185, Equal 186 187 188, Divide 189 190 191;
                Plus: Copy 192 193 194, Plus 195 196 197, Minus 198 199 200, Times 201 202 203, Less 204 205 206, Equal 207 208 209, Divide 210 211 212;
                Minus: Copy 213 214 215, Plus 216 217 218, Minus 219 220 221, Times 222 223 224, Less 225 226 227, Equal 228 229 230, Divide 231 232 233;
                Times: Copy 234 235 236, Plus 237 238 239, Minus 240 241 242, Times 243 244 245, Less 246 247 248, Equal 249 250 251, Divide 252 253 254;
                Less: Copy 255 256 257, Plus 258 259 260, Minus 261 262 263, Times 264 265 266, Less 267 268 269, Equal 270 271 272, Divide 273 274 275;
                Equal: Copy 276 277 278, Plus 279 280 281, Minus 282 283 284, Times 285 286 287, Less 288 289 290, Equal 291 292 293, Divide 294 295 296;
                Divide: Copy 297 298 299, Plus 300 301 302, Minus 303 304 305, Times 306 307 308, Less 309 310 311, Equal 312 313 314, Divide 315 316 317;
            }
        }
    }
}

/// Runs by stretches, with the arrays for them.
#[inline(never)]
fn run_stretches(
    instructions: &[Instruction],
    file: &mut [u32],
    prices: &[u64; KINDS],
    place: &mut Place,
    budget: u32,
) -> Option<Outcome> {
    let mut stretches = Stretches::new();
    stretches.fill(instructions, prices);
    stretches.run(instructions, file, place, budget)
}

/// A run of a program that is taken.
fn run_program(program: &mut Program, budget: u32, prices: &Prices) -> Outcome {
    let (instructions, file) = program.parts();
    debug_assert!(instructions.len() <= MOST_LINES && file.len() > INPUT);
    let mut place = Place { at: 0, taken: 0 };
    if budget > 0 {
        let prices: [u64; KINDS] =
            std::array::from_fn(|kind| 1 << STEP_BIT | u64::from(in_force(prices, kind)));
        let before = budget.min(STEPS_BEFORE * instructions.len() as u32);
        let place = &mut place;
        let mut outcome = step_on(instructions, file, &prices, place, before);
        if outcome.is_none() && before < budget {
            outcome = run_stretches(instructions, file, &prices, place, budget)
                .or_else(|| step_on(instructions, file, &prices, place, budget));
        }
        if let Some(outcome) = outcome {
            return outcome;
        }
    }
    let (statement, ticks) = (place.at as u32 + 1, place.ticks());
    Outcome::Spent { statement, values: variables(file), ticks }
}

/// The call: a run's outcome, or the refusal, 15 or 2 to 5.
pub fn run(
    program: &[u8],
    values: &Values,
    input: u32,
    budget: u32,
    prices: &Prices,
) -> Result<Outcome, u8> {
    if budget > LARGEST_BUDGET {
        return Err(15);
    }
    let mut given = Program::empty();
    given.read(program, values, input)?;
    Ok(run_program(&mut given, budget, prices))
}
