//! Reviews: document 02's Wish 3, and random reviews against single conditions.

use super::P;
use crate::condition::{tabulate, words_of, Condition, Part, PART_WORDS, TABLE_WORDS};
use crate::generate::{self, Random};
use crate::review::{conditions, review, tables, Reviewed, REVIEW_LINES, REVIEW_WORDS};
use crate::tuned;

/// What a review of P leaves in words 0 of its tables, and its answer.
fn reviewed(text: &str) -> Result<(Vec<u64>, Reviewed), u8> {
    let (mut table, mut other) = ([7; REVIEW_WORDS], [7; REVIEW_WORDS]);
    let answer = review(P.as_bytes(), text.as_bytes(), &mut table);
    assert_eq!(tuned::review(P.as_bytes(), text.as_bytes(), &mut other), answer, "{text}");
    assert_eq!(table, other, "{text}");
    let filled = answer.map_or(0, |reviewed| PART_WORDS * reviewed.tables as usize);
    assert!(table[filled..].iter().all(|&word| word == 7), "{text}");
    let rows = table[..filled].chunks(PART_WORDS);
    answer.map(|answer| {
        let words = rows.map(|row| {
            assert_eq!(row[1..], [0; PART_WORDS - 1]);
            row[0]
        });
        (words.collect(), answer)
    })
}

fn refusal(text: &str) -> u8 {
    reviewed(text).err().unwrap_or(0)
}

fn count(text: &str) -> u32 {
    reviewed(text).map(|(_, answer)| answer.tables).expect("the review is taken")
}

/// `node(k)` for each k, each behind so many `!`.
fn negated(numbers: std::ops::Range<u32>, times: usize) -> String {
    numbers.map(|k| format!("{}node({k})\n", "!".repeat(times))).collect()
}

#[test]
fn lines_that_share_parts() {
    let text =
        "E[!def(i2) U use(i2)]\nEX exit\n(EX exit & E[!def(i2) U use(i2)])\nuse(i2)\nEX exit\n";
    let (words, answer) = reviewed(text).expect("the review is taken");
    assert_eq!(words, [4, 251, 8, 120, 128, 208, 80]);
    assert_eq!((answer.tables, answer.lines), (7, 5));
    assert_eq!(answer.table_of[..5], [3, 5, 6, 2, 5]);
    assert_eq!(answer.parts[..5], [4, 2, 7, 1, 2]);
    assert_eq!(answer.satisfied[..5], [4, 3, 2, 1, 3]);
    assert_eq!(answer.first[..5], [4, 5, 5, 4, 5]);
    for past in [answer.table_of, answer.parts, answer.satisfied, answer.first] {
        assert_eq!(past[5..], [0; REVIEW_LINES - 5]);
    }
}

#[test]
fn parts_are_alike_by_their_bytes() {
    assert_eq!(count("(exit & entry)\n(entry & exit)\n"), 4);
    assert_eq!(count("(EX exit & EX exit)\n"), 3);
    assert_eq!(count(&"(true & true)\n".repeat(32)), 2);
    assert_eq!(count("node(1)\nnode(2)\ndef(i1)\ndef(i2)\nuse(i2)\n"), 5);
    assert_eq!(count("E[exit U exit]\nA[exit U exit]\nE[exit W exit]\nE[exit S exit]\n"), 5);
    assert_eq!(count("trans(i1)\ntrans(i1 + i1)\ntrans(1)\ntrans(-1)\n"), 4);
    // The order is that of first endings.
    let (words, _) = reviewed("exit\n(entry & exit)\nentry\n").expect("the review is taken");
    assert_eq!(words, [128, 1, 0]);
}

#[test]
fn edges_of_a_review() {
    let (_, answer) = reviewed(&negated(0..32, 3)).expect("the review is taken");
    assert_eq!(answer.tables, 128);
    assert_eq!((answer.table_of[31], answer.satisfied[31], answer.first[31]), (127, 8, 1));
    assert_eq!(refusal(&(negated(0..31, 3) + &negated(31..32, 4))), 17);
    assert_eq!(refusal(&negated(0..3, 60)), 17);
    assert_eq!(refusal(&(negated(0..3, 60) + "x\n")), 7);
    assert_eq!(refusal(""), 16);
    assert_eq!(refusal(&"true\n".repeat(33)), 16);
    assert_eq!(refusal(&("true\n".repeat(32) + "t")), 16);
    assert_eq!(refusal(&("x\n".repeat(33))), 16);
    assert_eq!(refusal("true"), 7);
    assert_eq!(refusal(&"!".repeat(1_025)), 6);
    assert_eq!(refusal(&("!\n".to_string() + &"!".repeat(1_025))), 7);
    assert_eq!(refusal("\n"), 7);
    assert_eq!(refusal("true\n\n"), 7);
    assert_eq!(refusal(&("!".repeat(64) + "true\n")), 8);
    assert_eq!(refusal(&("x\n".to_string() + &"!".repeat(64) + "true\n")), 7);
    assert_eq!(refusal(&("!".repeat(64) + "true\nx\n")), 8);
    assert_eq!(refusal(&("!".repeat(64) + "true")), 7);
    for (program, room, expected) in [("", 2_047, 1), ("", 2_048, 3), (P, 2_047, 1), (P, 2_048, 16)]
    {
        let lines = "true\n".repeat(33);
        let answer = review(program.as_bytes(), lines.as_bytes(), &mut vec![0; room]);
        assert_eq!(answer.err(), Some(expected));
    }
}

/// The table, the count and the first of a line are what `tabulate` answers for that line alone.
#[test]
fn lines_read_as_by_themselves() {
    let random = &mut Random::new(30);
    for _ in 0..3_000 {
        let size = generate::size(random);
        let program = generate::program(random, size);
        let (lines, parts) = (random.between(1, 32), random.between(1, 12));
        let text = generate::review(random, &program, lines, parts);
        let mut table = [0; REVIEW_WORDS];
        let answer = match review(&program.text(), &text, &mut table) {
            Ok(answer) => answer,
            Err(number) => {
                assert_eq!(number, 17);
                continue;
            }
        };
        for (j, line) in text.split(|&byte| byte == 10).take(lines).enumerate() {
            let mut alone = [0; TABLE_WORDS];
            let told = tabulate(&program.text(), line, &mut alone).expect("a line is taken");
            assert_eq!(told, (answer.parts[j], answer.satisfied[j], answer.first[j]));
            let (k, last) = (answer.table_of[j] as usize, told.0 as usize - 1);
            assert_eq!(words_of(&mut table, k), words_of(&mut alone, last));
        }
    }
}

#[test]
fn tuned_reviews_are_the_plain_ones() {
    let random = &mut Random::new(31);
    let mut met = [0; 18];
    for _ in 0..20_000 {
        let size = generate::size(random);
        let program = generate::program(random, size);
        let mut text = program.text();
        let mut asked = generate::any_review(random, &program);
        match random.below(20) {
            0 => text = generate::damage(random, &text),
            1 => asked = generate::damage(random, &asked),
            _ => {}
        }
        let room = random.pick(&[2_048, 2_048, 2_048, 2_049, 2_047]);
        let (mut one, mut other) = (vec![7; room], vec![7; room]);
        let answer = tuned::review(&text, &asked, &mut one);
        let shown = || format!("{} {}", text.escape_ascii(), asked.escape_ascii());
        assert_eq!(answer, review(&text, &asked, &mut other), "{}", shown());
        assert_eq!(one, other, "{}", shown());
        met[usize::from(answer.err().unwrap_or(0))] += 1;
    }
    println!("{met:?}");
    for number in [0, 1, 2, 3, 4, 5, 6, 7, 8, 16, 17] {
        assert!(met[number] > 5, "{number}: {met:?}");
    }
}

/// What tests need of generated reviews.
#[test]
fn generated_reviews_share() {
    let random = &mut Random::new(32);
    let (mut shared, mut within, mut commuted, mut again, mut full) = (0, 0, 0, 0, 0);
    for _ in 0..3_000 {
        let program = generate::program(random, 12);
        let text = generate::any_review(random, &program);
        let read: Vec<Condition> = match conditions(&text) {
            Ok(read) => read,
            Err(_) => continue,
        };
        let all = tables(&read);
        let parts: usize = read.iter().map(|condition| condition.parts().len()).sum();
        shared += usize::from(parts > all.len());
        full += usize::from(all.len() == 128);
        let is_within = |c: &Condition| tables(std::slice::from_ref(c)).len() < c.parts().len();
        within += usize::from(read.iter().any(is_within));
        let texts: Vec<Vec<u8>> = read.iter().map(Condition::text).collect();
        again += usize::from((1..texts.len()).any(|j| texts[..j].contains(&texts[j])));
        let is_commuted = |c: &Condition| {
            c.parts().iter().any(|part| match *part {
                Part::Or(one, other) => match (c.parts()[one], c.parts()[other]) {
                    (Part::And(p, q), Part::And(r, s)) => {
                        p != q && c.text_of(p) == c.text_of(s) && c.text_of(q) == c.text_of(r)
                    }
                    _ => false,
                },
                _ => false,
            })
        };
        commuted += usize::from(read.iter().any(is_commuted));
    }
    println!("{shared} {within} {commuted} {again} {full}");
    assert!(shared > 1_000 && within > 500 && commuted > 100 && again > 500 && full > 10);
}

#[test]
fn reviews_of_so_many_tables() {
    let random = &mut Random::new(33);
    for tables in 1..=256 {
        let text = generate::review_of_tables(random, tables);
        let read = conditions(&text).expect("each line is taken");
        assert_eq!(super::review::tables(&read).len(), tables);
    }
}
