//! The families of formulas.

use crate::comparison::{Comparison, Outcome};
use crate::rules::Rules;
use inputs::formulas;

/// Every text of up to five characters, with any values of the letters.
pub fn every_short<R: Rules>(c: &mut Comparison<R>) -> Outcome {
    formulas::every(5, |text| {
        let letters = formulas::letters(&mut c.random);
        c.weight(text, &letters)
    })
}

/// Allowed formulas of a few operands, whole and damaged, and any texts of their characters.
pub fn small<R: Rules>(c: &mut Comparison<R>) -> Outcome {
    for round in 0..20_000 {
        let letters = formulas::letters(&mut c.random);
        let text = formulas::any(&mut c.random, 1 + round % 6, 3);
        c.weight(&text, &letters)?;
        let damaged = formulas::damaged(&mut c.random, text);
        c.weight(&damaged[..damaged.len().min(24)], &letters)?;
        let text = formulas::any_text(&mut c.random, 12);
        c.weight(&text, &letters)?;
    }
    Ok(())
}

/// Allowed formulas of up to sixty operands.
pub fn allowed<R: Rules>(c: &mut Comparison<R>) -> Outcome {
    for round in 0..500_000 {
        let letters = formulas::letters(&mut c.random);
        let text = formulas::any(&mut c.random, 1 + round % 60 / (1 + round % 7), round % 6);
        c.weight(&text, &letters)?;
    }
    Ok(())
}

/// The same damaged, and cut at every place.
pub fn damaged<R: Rules>(c: &mut Comparison<R>) -> Outcome {
    for round in 0..500_000 {
        let letters = formulas::letters(&mut c.random);
        let text = formulas::any(&mut c.random, 1 + round % 30, 1 + round % 5);
        if round % 64 == 0 {
            (0..text.len()).try_for_each(|end| c.weight(&text[..end], &letters))?;
        }
        let text = formulas::damaged(&mut c.random, text);
        c.weight(&text, &letters)?;
    }
    Ok(())
}

/// Parentheses up to the most that may be open together, and beyond, whole and damaged.
pub fn nested<R: Rules>(c: &mut Comparison<R>) -> Outcome {
    nested_times(c, 50_000)
}

/// A few of these, for rules that are slow on them.
pub fn few_nested<R: Rules>(c: &mut Comparison<R>) -> Outcome {
    nested_times(c, 500)
}

fn nested_times<R: Rules>(c: &mut Comparison<R>, times: usize) -> Outcome {
    for round in 0..times {
        let letters = formulas::letters(&mut c.random);
        let text = formulas::nested(&mut c.random, 31 + round % 4);
        c.weight(&text, &letters)?;
        let text = formulas::damaged(&mut c.random, text);
        c.weight(&text, &letters)?;
    }
    Ok(())
}

/// Numbers and letters at the edges of what numbers, partial results and weights may be.
pub fn edges<R: Rules>(c: &mut Comparison<R>) -> Outcome {
    for round in 0..20_000 {
        let letters = formulas::letters(&mut c.random);
        let text = formulas::of_edges(&mut c.random, 1 + round % 4);
        c.weight(&text, &letters)?;
    }
    Ok(())
}

/// Texts of some hundred thousand bytes: all alike, formulas joined, and the same damaged.
pub fn long_texts<R: Rules>(c: &mut Comparison<R>) -> Outcome {
    for round in 0..120 {
        let letters = formulas::letters(&mut c.random);
        let length = c.random.within(100_000..=400_000);
        let text = match round % 4 {
            0 => vec![formulas::CHARACTERS[round / 4 % 9]; length],
            1 => formulas::any(&mut c.random, length / 4, 32),
            2 => b"a*0+(1)*".iter().copied().cycle().take(length).collect(),
            _ => {
                let text = formulas::any(&mut c.random, length / 4, 8);
                formulas::damaged(&mut c.random, text)
            }
        };
        c.weight(&text, &letters)?;
    }
    Ok(())
}
