//! The cases of the defining document.

use super::{condition_refusal, judged, lines, refusal, skips, whole, words, P, P_PRICES, ZEROS};
use crate::check::check;
use crate::condition::{tabulate, TABLE_WORDS};
use crate::machine::{run, Outcome, VALUES};
use crate::marks::{judge, TEXT_BYTES, VERDICT_BYTES};
use crate::pricing::OURS;

const MARKS: &str =
    "4: mark(rpl, i2, 7)\n3: mark(rm, i2, 7)\n4: mark(rpl, i1, i0)\n6: mark(rm, i0, 1)\n\
                     9: mark(rm, i2, 7)\n";

#[test]
fn tables_of_p() {
    assert_eq!(words(P, "E[!def(i2) U use(i2)]"), [4, 251, 8, 120]);
    assert_eq!(whole(P, "A[true U exit]"), 128);
    assert_eq!(whole(P, "A[true W exit]"), 255);
    assert_eq!(whole(P, "EX exit"), 208);
    assert_eq!(whole(P, "AX exit"), 128);
    assert_eq!(whole(P, "EY entry"), 3);
    assert_eq!(whole(P, "AM !def(i2)"), 3);
    assert_eq!(whole(P, "EM !def(i2)"), 251);
}

#[test]
fn answers_of_tables_of_p() {
    let mut table = [0; TABLE_WORDS];
    let mut answer = |text: &str| tabulate(P.as_bytes(), text.as_bytes(), &mut table);
    assert_eq!(answer("E[!def(i2) U use(i2)]"), Ok((4, 4, 4)));
    assert_eq!(answer("A[true U exit]"), Ok((3, 1, 8)));
    assert_eq!(answer("EX exit"), Ok((2, 3, 5)));
    assert_eq!(answer("EY entry"), Ok((2, 2, 1)));
    assert_eq!(answer("false"), Ok((1, 0, 0)));
}

#[test]
fn runs_of_p() {
    let p = P.as_bytes();
    let ended = |value, steps, ticks| Ok(Outcome::Ended { value, steps, kept: ZEROS, ticks });
    assert_eq!(run(p, [0; VALUES], 0, 1_000_000, &OURS), ended(7, 6, 18));
    assert_eq!(run(p, [0; VALUES], 2, 1_000_000, &OURS), ended(9, 12, 36));
    assert_eq!(run(p, [0; VALUES], 2, 12, &OURS), ended(9, 12, 36));
    match run(p, [0; VALUES], 2, 11, &OURS) {
        Ok(Outcome::Spent { statement, values, ticks }) => {
            assert_eq!((statement, ticks), (8, 32));
            assert_eq!(values[..5], [0, 2, 7, 9, 0]);
        }
        other => panic!("{other:?}"),
    }
}

#[test]
fn check_of_p() {
    let expected = "marks 5 accepted 1\n4 0\n3 14\n4 12\n6 13\n9 11\nread i0\ni1 := i0\ni2 := 7\n\
                    i3 := i1 + 7\nif i0 goto 6 else 8\ni0 := i0 - 1\nif i0 goto 4 else 8\nwrite i3\n\
                    1 4 4\n2 2 2\n3 2 2\n4 3 3\n5 3 3\n6 3 3\n7 3 3\n8 4 4\n24\n24\n0\n";
    assert_eq!(check(P.as_bytes(), MARKS.as_bytes()), expected.as_bytes());
    let (mut verdicts, mut text) = ([0; VERDICT_BYTES], [0; TEXT_BYTES]);
    let answer = judge(P.as_bytes(), MARKS.as_bytes(), &mut verdicts, &mut text);
    assert_eq!(answer, Ok((5, 1, P.len() as u32 - 1)));
}

#[test]
fn edges() {
    assert_eq!(refusal(&skips(256)), 0);
    assert_eq!(refusal(&skips(257)), 0);
    assert_eq!(refusal(&skips(1_024)), 0);
    assert_eq!(refusal(&skips(1_025)), 3);
    assert_eq!(refusal("read i0\ni0 := 2147483647\nwrite i0\n"), 0);
    assert_eq!(refusal("read i0\ni0 := 2147483648\nwrite i0\n"), 2);
    assert_eq!(condition_refusal(&format!("{}true", "!".repeat(63))), 0);
    assert_eq!(condition_refusal(&format!("{}true", "!".repeat(64))), 8);
    assert_eq!(judged(P, ""), (vec![], P.to_string()));
    let report = format!("marks 0 accepted 0\n{P}{P_PRICES}");
    assert_eq!(check(P.as_bytes(), b""), report.as_bytes());
}

#[test]
fn arithmetic() {
    let value = |right: &str, i1: u32, i2: u32| {
        let mut values = [0; VALUES];
        values[1] = i1;
        values[2] = i2;
        let text = format!("read i0\ni0 := {right}\nwrite i0\n");
        match run(text.as_bytes(), values, 5, 3, &OURS) {
            Ok(Outcome::Ended { value, steps: 3, kept: ZEROS, .. }) => value,
            other => panic!("{other:?}"),
        }
    };
    assert_eq!(value("2147483647 + 1", 0, 0), -2147483648);
    assert_eq!(value("i1 < 0", 0x8000_0000, 0), 1);
    assert_eq!(value("0 < i1", 0x8000_0000, 0), 0);
    assert_eq!(value("i1 < i2", 0x8000_0000, 0x7FFF_FFFF), 1);
    assert_eq!(value("i1 < i1", 3, 0), 0);
    assert_eq!(value("i1 = i2", u32::MAX, u32::MAX), 1);
    assert_eq!(value("i1 = i2", u32::MAX, 1), 0);
    assert_eq!(value("0 - 40", 0, 0), -40);
    assert_eq!(value("i1 - i2", 0x8000_0000, 1), 2147483647);
    assert_eq!(value("i1 * i2", 0x8000_0000, 2), 0);
    assert_eq!(value("i1 * i2", u32::MAX, u32::MAX), 1);
    assert_eq!(value("2147483647 * 2147483647", 0, 0), 1);
    assert_eq!(value("65537 * 65537", 0, 0), 131073);
    assert_eq!(value("i0", 0, 0), 5);
    assert_eq!(value("i1", u32::MAX, 0), -1);
}

#[test]
fn refusals_by_order() {
    let mut table = [7; 1_023];
    assert_eq!(tabulate(b"", b"", &mut table), Err(1));
    let mut table = [7; 1_100];
    assert_eq!(tabulate(b"x", b"x", &mut table), Err(2));
    assert_eq!(tabulate(b"", &[b'!'; 2_000], &mut table), Err(3));
    assert_eq!(tabulate(b"skip\nskip\n", b"", &mut table), Err(4));
    assert_eq!(tabulate(b"read i0\nif i0 goto 1 else 2\nwrite i0\n", b"", &mut table), Err(5));
    assert_eq!(tabulate(P.as_bytes(), &[b'!'; 1_025], &mut table), Err(6));
    assert_eq!(tabulate(P.as_bytes(), &[b'!'; 1_024], &mut table), Err(7));
    assert_eq!(
        tabulate(P.as_bytes(), format!("{}exit", "!".repeat(64)).as_bytes(), &mut table),
        Err(8)
    );
    assert_eq!(table, [7; 1_100]);

    let (mut verdicts, mut text) = ([7; VERDICT_BYTES], [7; TEXT_BYTES]);
    assert_eq!(judge(b"", b"x", &mut verdicts[..1_023], &mut text), Err(1));
    assert_eq!(judge(b"", b"x", &mut verdicts, &mut text[..34_815]), Err(1));
    assert_eq!(judge(b"", b"x", &mut verdicts, &mut text), Err(3));
    assert_eq!(judge(P.as_bytes(), b"x", &mut verdicts, &mut text), Err(9));
    let many = "0: mark(rm, i0, 1)\n".repeat(1_025);
    assert_eq!(judge(P.as_bytes(), many.as_bytes(), &mut verdicts, &mut text), Err(10));
    assert_eq!((verdicts, text), ([7; VERDICT_BYTES], [7; TEXT_BYTES]));

    assert_eq!(run(b"", [0; VALUES], 0, 1_000_001, &OURS), Err(15));
    assert_eq!(run(b"", [0; VALUES], 0, 1_000_000, &OURS), Err(3));
    assert_eq!(check(b"", b"x"), b"refused 3\n");
    assert_eq!(check(P.as_bytes(), b"x"), b"refused 9\n");
}

#[test]
fn buffers_are_kept_beyond_what_is_filled() {
    let mut table = [u64::MAX; 1_100];
    assert_eq!(tabulate(P.as_bytes(), b"EX exit", &mut table), Ok((2, 3, 5)));
    assert_eq!((table[0], table[16]), (128, 208));
    assert!(table[1..16].iter().chain(&table[17..32]).all(|&word| word == 0));
    assert!(table[32..].iter().all(|&word| word == u64::MAX));

    let (mut verdicts, mut text) = ([77; 1_100], [77; 35_000]);
    let (_, _, bytes) =
        judge(P.as_bytes(), MARKS.as_bytes(), &mut verdicts, &mut text).expect("taken");
    assert_eq!(verdicts[..5], [0, 14, 12, 13, 11]);
    assert!(verdicts[5..].iter().all(|&byte| byte == 77));
    assert!(text[bytes as usize..].iter().all(|&byte| byte == 77));
}

#[test]
fn bits_of_all_sixteen_words() {
    let mut table = [7; TABLE_WORDS];
    let text = skips(1_024);
    for n in [1, 64, 65, 192, 256, 257, 1_023, 1_024] {
        let condition = format!("node({n})");
        let answer = tabulate(text.as_bytes(), condition.as_bytes(), &mut table);
        assert_eq!(answer, Ok((1, 1, n as u32)));
        for (k, &word) in table[..16].iter().enumerate() {
            assert_eq!(word, if k == (n - 1) / 64 { 1 << ((n - 1) % 64) } else { 0 }, "{n}");
        }
    }
    assert_eq!(tabulate(text.as_bytes(), b"exit", &mut table), Ok((1, 1, 1_024)));
    assert_eq!((table[14], table[15]), (0, 1 << 63));
    assert_eq!(tabulate(text.as_bytes(), b"!true", &mut table), Ok((2, 0, 0)));
    assert_eq!((&table[..16], &table[16..32]), (&[u64::MAX; 16][..], &[0; 16][..]));
    // Bits beyond N are 0 after `!`, also where N is a multiple of 64.
    for (count, words, rest) in
        [(2, 0, 3), (63, 0, u64::MAX >> 1), (65, 1, 1), (257, 4, 1), (1_023, 15, u64::MAX >> 1)]
    {
        let answer = tabulate(skips(count).as_bytes(), b"!false", &mut table);
        assert_eq!(answer, Ok((2, count as u32, 1)));
        for (k, &word) in table[16..32].iter().enumerate() {
            let wanted = match k {
                _ if k < words => u64::MAX,
                _ if k == words => rest,
                _ => 0,
            };
            assert_eq!(word, wanted, "word {k} of {count}");
        }
    }
    for count in [64, 256, 960] {
        let answer = tabulate(skips(count).as_bytes(), b"!false", &mut table);
        assert_eq!(answer, Ok((2, count as u32, 1)));
        let (front, rest) = table[16..32].split_at(count / 64);
        assert!(front.iter().all(|&word| word == u64::MAX) && rest.iter().all(|&word| word == 0));
    }
}

/// Each spelling of a statement, a condition and a mark.
#[test]
fn spellings_that_are_taken() {
    for right in ["i63", "0", "i1 + 2", "3 - i4", "5 * 6", "i7 < i8", "9 = i10", "11 / i12"] {
        assert_eq!(refusal(&format!("read i0\ni31 := {right}\nwrite i0\n")), 0, "{right}");
        assert_eq!(condition_refusal(&format!("trans({right})")), 0, "{right}");
        assert_eq!(condition_refusal(&format!("stmt(i63 := {right})")), 0, "{right}");
        assert_eq!(judged(P, &format!("3: mark(rm, i2, {right})\n")).0, [13], "{right}");
    }
    for sign in
        ["!", "EX ", "AX ", "EF ", "AF ", "EG ", "AG ", "EY ", "AY ", "ER ", "AR ", "EM ", "AM "]
    {
        assert_eq!(condition_refusal(&format!("{sign}(true & entry)")), 0, "{sign}");
    }
    for letter in ["U", "W", "S", "B"] {
        assert_eq!(condition_refusal(&format!("E[false {letter} node(0)]")), 0, "{letter}");
        assert_eq!(condition_refusal(&format!("A[def(i0) {letter} use(i63)]")), 0, "{letter}");
    }
    for statement in ["read i1", "write i2", "skip", "if i3 goto 0 else 2147483647"] {
        assert_eq!(condition_refusal(&format!("stmt({statement})")), 0, "{statement}");
    }
}

/// Each operator with one operand by one table of P, whose forward steps are 1 2 3 4 5 {6,8} 7 {4,8} 8.
#[test]
fn operators_of_p() {
    assert_eq!(whole(P, "EF node(6)"), 0b0111_1111);
    assert_eq!(whole(P, "AF node(4)"), 0b0000_1111);
    assert_eq!(whole(P, "EG !exit"), 0b0111_1111);
    assert_eq!(whole(P, "AG !node(6)"), 0b1000_0000);
    assert_eq!(whole(P, "AY node(7)"), 0);
    assert_eq!(whole(P, "EY node(7)"), 0b1000_1000);
    assert_eq!(whole(P, "ER node(6)"), 0b1111_1000);
    assert_eq!(whole(P, "AR node(3)"), 0b0000_0100);
    assert_eq!(whole(P, "AR entry"), 0b0000_0111);
    assert_eq!(whole(P, "EM !entry"), 0b1111_1000);
    assert_eq!(whole(P, "E[!node(5) W node(8)]"), 0b1000_0000 | 0b0110_0000);
    assert_eq!(whole(P, "A[!node(6) U node(5)]"), 0b0001_1111);
    assert_eq!(whole(P, "A[!entry B node(3)]"), 0b1111_1100);
    assert_eq!(whole(P, "A[!entry S node(3)]"), 0b0000_0100);
    assert_eq!(whole(P, "E[!node(5) S node(3)]"), 0b0001_1100 & !0b0001_0000);
}

/// The readings that the document warns of give other tables.
#[test]
fn readings_that_spoil_a_table() {
    // A copy made before a loop and used in it.
    let looped = lines("read i0 / i1 := i0 / i2 := i1 + 1 / if i2 goto 3 else 5 / write i2");
    let back_to = "AY A[((!def(i1) & trans(i0)) & !entry) B stmt(i1 := i0)]";
    assert_eq!(whole(&looped, back_to) & 0b100, 0b100);
    assert_eq!(whole(&looped, &back_to.replace(" B ", " S ")) & 0b100, 0);
    assert_eq!(judged(&looped, "3: mark(rpl, i1, i0)\n").0, [0]);
    // A use that no copy reaches.
    let plain = lines("read i0 / i2 := i1 + 1 / write i2");
    assert_eq!(whole(&plain, back_to) & 0b10, 0);
    assert_eq!(whole(&plain, "AY A[(!def(i1) & trans(i5)) B stmt(i1 := i5)]") & 0b10, 0b10);
    assert_eq!(judged(&plain, "2: mark(rpl, i1, i5)\n").0, [14]);
    // Verdicts don't depend on line order.
    let chain = lines("read i0 / i1 := i0 / i2 := i1 / write i2");
    let marks = ["4: mark(rpl, i2, i1)\n", "3: mark(rpl, i1, i0)\n", "3: mark(rm, i2, i1)\n"];
    assert_eq!(judged(&chain, &marks.concat()).0, [0, 0, 12]);
    assert_eq!(judged(&chain, &[marks[1], marks[0], marks[2]].concat()).0, [0, 0, 12]);
    assert_eq!(judged(&chain, &[marks[2], marks[0], marks[1]].concat()).0, [14, 0, 12]);
    // q at place 0 is enough for U.
    assert_eq!(whole(P, "E[false U exit]"), 128);
}
