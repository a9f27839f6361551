//! What a driver can force: the cases of the change request, and numbers and arms against all positional strategies.

use super::{lines, skips, P};
use crate::condition::{tabulate, TABLE_WORDS};
use crate::forcing::{arms, force, names, numbers, player, Arm, Forced, Player, UNFORCED};
use crate::generate::{self, Random, WrongDriver};
use crate::program::{Program, Statement, MOST_LINES, VARIABLES};
use crate::steps::Steps;
use crate::tuned;

/// What is told, by the plain and by the tuned call.
fn forced(program: &str, driver: &str, condition: &str) -> Forced {
    let (program, driver, condition) =
        (program.as_bytes(), driver.as_bytes(), condition.as_bytes());
    let (mut table, mut other, mut alone) =
        ([9; TABLE_WORDS + 4], [9; TABLE_WORDS + 4], [9; TABLE_WORDS + 4]);
    let told = force(program, driver, condition, &mut table).expect("all is taken");
    let (mut number, mut arm) = ([7; MOST_LINES], [9; MOST_LINES]);
    let tuned = tuned::force(program, driver, condition, &mut other, &mut number, &mut arm);
    assert_eq!(tuned, Ok((told.parts, told.satisfied, told.first)));
    assert_eq!(tabulate(program, condition, &mut alone), tuned);
    assert!(table == other && table == alone);
    for at in 0..MOST_LINES {
        let wanted = match told.number.get(at) {
            Some(wanted) => (wanted.unwrap_or(UNFORCED), Arm::number(told.arm[at])),
            None => (7, 9),
        };
        assert_eq!((number[at], arm[at]), wanted, "statement {}", at + 1);
    }
    told
}

/// The numbers and the arms as a line: `5 4 - 0`, `.. goto else`.
fn told(program: &str, driver: &str, condition: &str) -> (String, Vec<(usize, Arm)>) {
    let forced = forced(program, driver, condition);
    let word = |number: &Option<u32>| number.map_or("-".to_string(), |number| number.to_string());
    let numbers: Vec<String> = forced.number.iter().map(word).collect();
    let arms = forced.arm.iter().enumerate().filter_map(|(at, arm)| Some((at + 1, (*arm)?)));
    (numbers.join(" "), arms.collect())
}

fn refusal(program: &str, driver: &str, condition: &str, room: usize) -> u8 {
    let (mut table, mut other) = (vec![9; room], vec![9; room]);
    let (program, driver, condition) =
        (program.as_bytes(), driver.as_bytes(), condition.as_bytes());
    let answer = force(program, driver, condition, &mut table).map_or_else(|number| number, |_| 0);
    let (mut number, mut arm) = ([7; MOST_LINES], [9; MOST_LINES]);
    let tuned = tuned::force(program, driver, condition, &mut other, &mut number, &mut arm);
    assert_eq!(tuned.map_or_else(|number| number, |_| 0), answer);
    if answer != 0 {
        assert!(table.iter().chain(&other).all(|&word| word == 9));
        assert_eq!((number, arm), ([7; MOST_LINES], [9; MOST_LINES]));
    }
    answer
}

const L: &str = "read i0\nif i1 goto 4 else 3\nif i0 goto 2 else 5\nif i2 goto 5 else 6\ni3 := 1\n\
                 if i1 goto 2 else 7\nwrite i3\n";

#[test]
fn games_on_p() {
    use Arm::{Else, Goto};
    for (driver, condition, numbers, arms) in [
        ("i0", "exit", "5 4 3 2 1 2 1 0", [(5, Else), (7, Else)]),
        ("", "exit", "- - - - - - - 0", [(5, Goto), (7, Goto)]),
        ("i0", "node(6)", "5 4 3 2 1 0 3 -", [(5, Goto), (7, Goto)]),
        ("", "node(6)", "- - - - - 0 - -", [(5, Else), (7, Goto)]),
        ("i1 i0", "use(i2)", "3 2 1 0 3 2 1 -", [(5, Goto), (7, Goto)]),
        ("", "use(i2)", "3 2 1 0 - - - -", [(5, Goto), (7, Else)]),
    ] {
        let wanted = (numbers.to_string(), arms.to_vec());
        assert_eq!(told(P, driver, condition), wanted, "{driver}, {condition}");
    }
    // The order of the names, and names that nothing tests, make no difference.
    for driver in ["i0", "i0 i1", "i1 i0", "i63 i0 i9", "i5 i6 i7 i0"] {
        assert_eq!(told(P, driver, "exit"), told(P, "i0", "exit"), "{driver}");
    }
    assert_eq!(told(P, "i1 i2 i63", "exit"), told(P, "", "exit"));
}

#[test]
fn games_on_l() {
    use Arm::{Else, Goto};
    assert_eq!(told(L, "i1", "exit"), ("5 4 5 3 2 1 0".into(), vec![(2, Goto), (6, Else)]));
    assert_eq!(
        told(L, "i1 i0", "def(i3)"),
        ("3 2 1 4 0 3 -".into(), vec![(2, Else), (3, Else), (6, Goto)])
    );
    assert_eq!(told(L, "i1", "def(i3)"), ("- - - - 0 - -".into(), vec![(3, Goto), (4, Else)]));
}

#[test]
fn chains_and_edges() {
    let (numbers, arms) = told(&skips(1_024), "", "exit");
    let wanted: Vec<String> = (0..1_024).rev().map(|k: u32| k.to_string()).collect();
    assert_eq!((numbers, arms), (wanted.join(" "), vec![]));
    // Equal targets: `goto`, whoever's `if` it is.
    let equal = lines("read i0 / if i0 goto 3 else 3 / skip / write i0");
    assert_eq!(told(&equal, "i0", "exit"), ("3 2 1 0".into(), vec![(2, Arm::Goto)]));
    assert_eq!(told(&equal, "", "exit"), ("3 2 1 0".into(), vec![]));
    assert_eq!(told(&equal, "", "entry"), ("0 - - -".into(), vec![(2, Arm::Goto)]));
    assert_eq!(told(&equal, "i0", "entry"), ("0 - - -".into(), vec![]));
    // Where the condition is met there is no arm, also at his `if`.
    assert_eq!(told(&equal, "i0", "node(2)"), ("1 0 - -".into(), vec![]));
    assert_eq!(told(&equal, "", "node(2)"), ("1 0 - -".into(), vec![]));
    assert_eq!(told(P, "i0", "true"), ("0 0 0 0 0 0 0 0".into(), vec![]));
    assert_eq!(told(P, "i0", "false"), ("- - - - - - - -".into(), vec![]));
    let arms = vec![(5, Arm::Goto), (7, Arm::Goto)];
    assert_eq!(told(P, "", "false"), ("- - - - - - - -".into(), arms));
    // `write` steps to itself.
    assert_eq!(told(P, "i0", "node(7)"), ("6 5 4 3 2 1 0 -".into(), vec![(5, Arm::Goto)]));
    // An `if` on itself.
    let own = lines("read i0 / if i0 goto 2 else 3 / write i0");
    assert_eq!(told(&own, "i0", "exit"), ("2 1 0".into(), vec![(2, Arm::Else)]));
    assert_eq!(told(&own, "", "exit"), ("- - 0".into(), vec![(2, Arm::Goto)]));
    // The game goes forward where the condition looks back.
    assert_eq!(told(P, "i0", "EY node(6)").0, "6 5 4 3 2 1 0 -");
    // Two tests of one variable may go different ways.
    let twice = lines("read i0 / if i0 goto 3 else 5 / if i0 goto 5 else 4 / skip / write i0");
    let arms = vec![(2, Arm::Goto), (3, Arm::Else)];
    assert_eq!(told(&twice, "i0", "node(4)"), ("3 2 1 0 -".into(), arms));
}

/// The unit's `if` goes by its higher number, his by the lower; a tie goes to `goto`.
#[test]
fn arms_of_different_numbers() {
    // From 2 the end is 4 steps away by 3, and 1 by 6.
    let given = lines("read i0 / if i0 goto 3 else 6 / skip / skip / skip / write i0");
    assert_eq!(told(&given, "i0", "exit"), ("2 1 3 2 1 0".into(), vec![(2, Arm::Else)]));
    assert_eq!(told(&given, "", "exit"), ("5 4 3 2 1 0".into(), vec![]));
    let turned = given.replace("goto 3 else 6", "goto 6 else 3");
    assert_eq!(told(&turned, "i0", "exit"), ("2 1 3 2 1 0".into(), vec![(2, Arm::Goto)]));
    assert_eq!(told(&turned, "", "exit"), ("5 4 3 2 1 0".into(), vec![]));
    let tie = lines("read i0 / if i0 goto 3 else 4 / if i1 goto 5 else 5 / skip / write i0");
    assert_eq!(told(&tie, "i0", "exit"), ("3 2 1 1 0".into(), vec![(2, Arm::Goto)]));
    // Arms of a layer of their own: 2 must not see the number that 4 gets in the same sweep.
    let layers =
        lines("read i0 / if i0 goto 5 else 4 / skip / if i1 goto 5 else 5 / skip / write i0");
    assert_eq!(told(&layers, "", "exit").0, "4 3 3 2 1 0");
}

#[test]
fn lists_of_names() {
    assert_eq!(names(b""), Some(vec![]));
    assert_eq!(names(b"i0"), Some(vec![0]));
    assert_eq!(names(b"i63 i0 i10"), Some(vec![63, 0, 10]));
    let all: Vec<String> = (0..64).map(|x| format!("i{x}")).collect();
    assert_eq!(names(all.join(" ").as_bytes()), Some((0..64).collect()));
    for wrong in [
        " ",
        "i0 ",
        " i0",
        "i0  i1",
        "i0 i0",
        "i64",
        "i063",
        "i70",
        "i99",
        "i100",
        "i00",
        "i0\n",
        "\n",
        "i0,i1",
        "i0, i1",
        "i",
        "0",
        "I0",
        "i01",
        "i-1",
        "i+1",
        "i0\ti1",
        "i0 i1 i0",
        "i0i1",
        "i256",
        "i65536",
        "i4294967296",
        "use(i0)",
        "i0\0",
        "i1 ",
        "i3 i1 i3",
        "x",
    ] {
        assert_eq!(names(wrong.as_bytes()), None, "{wrong:?}");
        assert_eq!(refusal(P, wrong, "exit", TABLE_WORDS), 22, "{wrong:?}");
        // Before the condition is read, and after the program and the table.
        assert_eq!(refusal(P, wrong, "rubbish", TABLE_WORDS), 22, "{wrong:?}");
        assert_eq!(refusal(P, wrong, &"!".repeat(1_025), TABLE_WORDS), 22, "{wrong:?}");
        assert_eq!(refusal("rubbish", wrong, "rubbish", TABLE_WORDS), 2, "{wrong:?}");
        assert_eq!(refusal("", wrong, "exit", TABLE_WORDS), 3, "{wrong:?}");
        assert_eq!(refusal("", wrong, "exit", TABLE_WORDS - 1), 1, "{wrong:?}");
    }
    assert_eq!(refusal(P, "i0", "rubbish", TABLE_WORDS), 7);
    assert_eq!(refusal(P, "i0", &"!".repeat(1_025), TABLE_WORDS), 6);
    assert_eq!(refusal(P, "", &format!("{}true", "!".repeat(64)), TABLE_WORDS), 8);
    assert_eq!(refusal(P, "", "exit", TABLE_WORDS - 1), 1);
    assert_eq!(refusal(P, "", "exit", TABLE_WORDS), 0);
}

/// Where each statement may go, with an arm picked at some.
fn steps_with(program: &Program, pick: impl Fn(usize) -> Option<Arm>) -> Vec<Vec<usize>> {
    let steps = Steps::new(program).forward;
    let next = |(at, statement): (usize, &Statement)| match (statement, pick(at)) {
        (Statement::Branch { then, .. }, Some(Arm::Goto)) => vec![*then as usize - 1],
        (Statement::Branch { other, .. }, Some(Arm::Else)) => vec![*other as usize - 1],
        _ => steps[at].clone(),
    };
    program.statements().iter().enumerate().map(next).collect()
}

/// The steps after which every play is sure to have met the condition, by all plays of as many steps as there are statements:
/// one that hasn't met it by then has come to a statement twice, and may go round for ever.
fn sure(next: &[Vec<usize>], holds: &[bool]) -> Vec<Option<u32>> {
    let count = next.len();
    // By plays of k steps at most.
    let mut within: Vec<Option<u32>> = holds.iter().map(|&p| p.then_some(0)).collect();
    for _ in 0..count {
        let longest = |at: usize| {
            if holds[at] {
                return Some(0);
            }
            let of_all: Option<Vec<u32>> = next[at].iter().map(|&to| within[to]).collect();
            of_all.and_then(|numbers| numbers.into_iter().max()).map(|number| number + 1)
        };
        within = (0..count).map(longest).collect();
    }
    within
}

/// Whether some play comes to the condition.
fn reaches(next: &[Vec<usize>], holds: &[bool]) -> Vec<bool> {
    let mut met = holds.to_vec();
    for _ in 0..next.len() {
        met = (0..next.len()).map(|at| met[at] || next[at].iter().any(|&to| met[to])).collect();
    }
    met
}

/// All ways in which a player picks an arm at each of these.
fn strategies(ifs: &[usize]) -> impl Iterator<Item = impl Fn(usize) -> Option<Arm> + '_> + '_ {
    (0..1_u32 << ifs.len()).map(move |mask| {
        move |at| {
            let k = ifs.iter().position(|&other| other == at)?;
            Some(if mask >> k & 1 == 0 { Arm::Goto } else { Arm::Else })
        }
    })
}

/// Holds numbers and arms of a small program to all positional strategies of both players.
fn by_strategies(
    program: &Program,
    his: &[u8],
    holds: &[bool],
) -> (Vec<Option<u32>>, Vec<Option<Arm>>) {
    let count = holds.len();
    let of = |who: Player| -> Vec<usize> {
        let statements = program.statements().iter().enumerate();
        statements.filter(|(_, s)| player(s, his) == Some(who)).map(|(at, _)| at).collect()
    };
    let number = numbers(program, his, holds);
    let arm = arms(program, his, &number);
    // His best strategy, for each statement by itself.
    let mut best: Vec<Option<u32>> = vec![None; count];
    for pick in strategies(&of(Player::Driver)) {
        for (best, sure) in best.iter_mut().zip(sure(&steps_with(program, pick), holds)) {
            *best = match (*best, sure) {
                (Some(one), Some(other)) => Some(one.min(other)),
                (one, other) => one.or(other),
            };
        }
    }
    assert_eq!(best, number, "{program}{his:?}");
    // Some strategy of the unit avoids it exactly where he has no number.
    let mut avoided = vec![false; count];
    for pick in strategies(&of(Player::Unit)) {
        let met = reaches(&steps_with(program, pick), holds);
        avoided.iter_mut().zip(met).for_each(|(avoided, met)| *avoided |= !met);
    }
    let wanted: Vec<bool> = number.iter().map(Option::is_none).collect();
    assert_eq!(avoided, wanted, "{program}{his:?}");
    // The arms that are told are such strategies, whatever is picked where none is told.
    let told = |who: Player| {
        let arm = &arm;
        move |at: usize| match player(&program.statements()[at], his) {
            Some(one) if one == who => arm[at],
            _ => None,
        }
    };
    let sure = sure(&steps_with(program, told(Player::Driver)), holds);
    let met = reaches(&steps_with(program, told(Player::Unit)), holds);
    for at in 0..count {
        match number[at] {
            Some(number) => assert_eq!(sure[at], Some(number), "{program}{his:?}"),
            None => assert!(!met[at], "{program}{his:?}"),
        }
        let statement = &program.statements()[at];
        let has_arm = match player(statement, his) {
            Some(Player::Driver) => matches!(number[at], Some(1..)),
            Some(Player::Unit) => number[at].is_none(),
            None => false,
        };
        assert_eq!(arm[at].is_some(), has_arm, "{program}{his:?}");
        // `else` is told only where `goto` would not do as well.
        if arm[at] == Some(Arm::Else) {
            if let Statement::Branch { then, other, .. } = *statement {
                let (then, other) = (number[then as usize - 1], number[other as usize - 1]);
                let serves_less = match (then, other) {
                    (Some(n), Some(m)) => m < n,
                    (then, other) => then.is_some() != other.is_some(),
                };
                assert!(serves_less, "{program}{his:?}");
            }
        }
    }
    (number, arm)
}

/// Every program of four or five statements of which the inner ones are `skip` or an `if` on one of two variables.
#[test]
fn small_programs_by_all_positional_strategies() {
    for size in [4, 5] {
        let mut inner = vec!["skip".to_string()];
        for x in 0..2 {
            for n in 2..=size {
                for m in 2..=size {
                    inner.push(format!("if i{x} goto {n} else {m}"));
                }
            }
        }
        let count = inner.len();
        let kinds = count.pow(size as u32 - 2);
        // All of four statements; of five each 7th.
        for code in (0..kinds).step_by(if size == 4 { 1 } else { 7 }) {
            let mut rest = code;
            let mut text = "read i2\n".to_string();
            for _ in 2..size {
                text += &format!("{}\n", inner[rest % count]);
                rest /= count;
            }
            let program = Program::read(format!("{text}write i2\n").as_bytes()).expect("a program");
            let holds: Vec<bool> = (0..size).map(|at| at + 1 == 2 + code % (size - 1)).collect();
            let his: &[u8] = [&[0][..], &[1], &[], &[0, 1]][code / 3 % 4];
            by_strategies(&program, his, &holds);
        }
    }
}

/// Random programs of up to ten `if`s of each player. All kinds of numbers and arms are met.
#[test]
fn random_programs_by_all_positional_strategies() {
    let random = &mut Random::new(100);
    let mut met = [0; 8];
    for _ in 0..3_000 {
        let size = random.between(3, 14);
        let program = generate::game(random, size);
        let his = generate::driver(random, &program);
        let holds: Vec<bool> = match random.below(4) {
            0 => (0..size).map(|_| random.chance(20)).collect(),
            _ => {
                let goal = random.below(size);
                (0..size).map(|at| at == goal).collect()
            }
        };
        let ifs = |who: Player| {
            let is_his = |s: &&Statement| player(s, &his) == Some(who);
            program.statements().iter().filter(is_his).count()
        };
        if ifs(Player::Driver).max(ifs(Player::Unit)) > 9 {
            continue;
        }
        let (number, arm) = by_strategies(&program, &his, &holds);
        for (at, statement) in program.statements().iter().enumerate() {
            match (player(statement, &his), arm[at]) {
                (Some(Player::Driver), Some(Arm::Goto)) => met[0] += 1,
                (Some(Player::Driver), Some(Arm::Else)) => met[1] += 1,
                (Some(Player::Unit), Some(Arm::Goto)) => met[2] += 1,
                (Some(Player::Unit), Some(Arm::Else)) => met[3] += 1,
                (Some(Player::Driver), None) => met[4] += 1,
                (Some(Player::Unit), None) => met[5] += 1,
                (None, _) => met[6] += usize::from(number[at].is_none()),
            }
            met[7] = met[7].max(number[at].unwrap_or(0) as usize);
        }
    }
    println!("{met:?}");
    assert!(met[..7].iter().all(|&times| times > 500) && met[7] > 8, "{met:?}");
}

/// A play of random answers from each statement keeps to what is told.
#[test]
fn random_plays_keep_to_what_is_told() {
    let random = &mut Random::new(101);
    let (mut won, mut lost) = (0, 0);
    for _ in 0..400 {
        let size = random.between(20, 300);
        let program = generate::game(random, size);
        let his = generate::driver(random, &program);
        let goal = generate::goal(random, &program);
        let mut table = [0; TABLE_WORDS];
        let text = program.text();
        let driver = generate::driver_text(&his);
        let told = match force(&text, &driver, &goal, &mut table) {
            Ok(told) => told,
            Err(_) => continue,
        };
        let steps = Steps::new(&program);
        let target = |at: usize, arm: Arm| match (&program.statements()[at], arm) {
            (Statement::Branch { then, .. }, Arm::Goto) => *then as usize - 1,
            (Statement::Branch { other, .. }, Arm::Else) => *other as usize - 1,
            _ => unreachable!("only an `if` has an arm"),
        };
        for start in 0..size {
            let who = if told.number[start].is_some() { Player::Driver } else { Player::Unit };
            let mut at = start;
            for step in 0..2 * size as u32 {
                let left = told.number[at];
                match told.number[start] {
                    // At each step the number is at most what is left of the first.
                    Some(first) => assert!(left.map_or(false, |left| left + step <= first)),
                    None => assert_eq!(left, None),
                }
                if left == Some(0) {
                    won += 1;
                    break;
                }
                at = match told.arm[at] {
                    Some(arm) if player(&program.statements()[at], &his) == Some(who) => {
                        target(at, arm)
                    }
                    _ => random.pick(&steps.forward[at]),
                };
            }
            lost += usize::from(told.number[start].is_none());
        }
    }
    println!("{won} {lost}");
    assert!(won > 2_000 && lost > 2_000, "{won} {lost}");
}

/// What tests need of generated lists: taken ones of every size, and wrong ones of every kind, which are never taken.
#[test]
fn generated_lists_of_names() {
    let random = &mut Random::new(103);
    let mut sizes = [0; VARIABLES as usize + 1];
    for _ in 0..5_000 {
        let size = generate::size(random);
        let program = generate::game(random, size);
        let his = generate::driver(random, &program);
        sizes[his.len()] += 1;
        assert_eq!(names(&generate::driver_text(&his)), Some(his.clone()));
        for wrong in WrongDriver::ALL {
            let text = generate::wrong_driver(random, wrong, &his);
            assert_eq!(names(&text), None, "{wrong:?} {}", text.escape_ascii());
        }
    }
    assert!([0, 1, 2, 3, VARIABLES as usize].iter().all(|&size| sizes[size] > 50), "{sizes:?}");
}
