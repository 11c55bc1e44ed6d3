//! Weights as formulas: the words of document 02 on the rewrite and on the literal rules, and the one
//! held against the other on made-up texts.

use inputs::{formulas, Random};
use reference::formula::weight;
use reference::Refusal;

/// b = 20, n = 100, every other letter 7.
fn letters() -> Vec<u32> {
    let mut letters = vec![7; 26];
    letters[1] = 20;
    letters[13] = 100;
    letters
}

/// The answer of both.
fn both(text: &[u8], letters: &[u32]) -> Result<u16, (u8, u64)> {
    let told = |refusal: Refusal| (refusal.number, refusal.place);
    let answer = weight(text, letters).map_err(told);
    let literal = literal::interface::weight(text, letters);
    assert_eq!(answer, literal.map_err(|refusal| (refusal.number, refusal.place)), "{text:?}");
    answer
}

fn of(text: &str) -> Result<u16, (u8, u64)> {
    both(text.as_bytes(), &letters())
}

#[test]
fn products_bind_tighter_and_equals_group_from_the_left() {
    assert_eq!(of("3*n*n+2*(n+b)"), Ok(30_240));
    assert_eq!(of("1+2*3"), Ok(7));
    assert_eq!(of("(1+2)*3"), Ok(9));
    assert_eq!(of("0*4294967295*2+1"), Ok(1));
    assert_eq!(of("4294967295*2*0+1"), Err((36, 0)));
    assert_eq!(of("4294967295+1"), Err((36, 0)));
    assert_eq!(of("0*(4294967295+1)+1"), Err((36, 0)));
}

#[test]
fn texts_outside_the_grammar() {
    for (text, place) in [
        ("", 0),
        ("+", 0),
        (" 1", 0),
        ("A", 0),
        ("()", 1),
        ("1+", 2),
        ("(1+", 3),
        ("(1", 2),
        ("1)", 1),
        ("1 ", 1),
        ("ab", 1),
        ("1a", 1),
        ("a1", 1),
        ("(1)(", 3),
        ("2**3", 2),
        ("12345678901", 10),
        ("a+00000000000*", 12),
    ] {
        assert_eq!(of(text), Err((35, place)), "{text}");
    }
    for open in 30..40 {
        let text = "(".repeat(open) + "1" + &")".repeat(open);
        let right = if open <= 32 { Ok(1) } else { Err((35, 32)) };
        assert_eq!(of(&text), right, "{open}");
        assert_eq!(of(&"(".repeat(open)), Err((35, open.min(32) as u64)));
    }
}

#[test]
fn values_and_lists() {
    assert_eq!(of("0"), Err((36, 0)));
    assert_eq!(of("65535"), Ok(65_535));
    assert_eq!(of("65536"), Err((36, 0)));
    assert_eq!(of("0000000001"), Ok(1));
    assert_eq!(of("9999999999*0+1"), Err((36, 0)));
    assert_eq!(both(b"a", &[u32::MAX; 26]), Err((36, 0)));
    for count in [0, 1, 25, 27] {
        assert_eq!(both(b"1", &vec![1; count]), Err((36, 0)));
        assert_eq!(both(b"z", &vec![1; count]), Err((36, 0)));
        assert_eq!(both(b"1+", &vec![1; count]), Err((35, 2)));
    }
}

#[test]
fn made_up_texts() {
    let mut random = Random::new(16);
    let every = formulas::every(4, |text| {
        both(text, &formulas::letters(&mut random)).ok();
        Ok::<(), ()>(())
    });
    assert_eq!(every, Ok(()));
    let mut weights = 0;
    for round in 0..4000 {
        let letters = formulas::letters(&mut random);
        let text = match round % 4 {
            0 => formulas::of_edges(&mut random, 1 + round % 5),
            1 => formulas::any_text(&mut random, 16),
            _ => formulas::any(&mut random, 1 + round % 8, 3),
        };
        weights += usize::from(both(&text, &letters).is_ok());
        both(&formulas::damaged(&mut random, text), &letters).ok();
    }
    assert!(weights > 500, "{weights}");
}
