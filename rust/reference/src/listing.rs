//! The listing: a plan or a refusal as lines of text.

use crate::planner::{plan, Placement, Plan};
use crate::refusal::Refusal;
use crate::sheet::Sheet;

/// The program reads no more than this of its input.
pub const INPUT_LENGTH: usize = 8512;

/// What the program prints for a whole standard input.
pub fn print(input: &[u8]) -> Vec<u8> {
    let sheet = &input[..input.len().min(INPUT_LENGTH)];
    lines(&Sheet::read(sheet).and_then(|sheet| plan(&sheet)))
}

/// The lines of a plan or of a refusal.
pub fn lines(plan: &Result<Plan, Refusal>) -> Vec<u8> {
    match plan {
        Ok(plan) => plan_lines(plan),
        Err(refusal) => refusal_line(*refusal),
    }
}

/// The lines of a plan.
fn plan_lines(plan: &Plan) -> Vec<u8> {
    let mut lines = Vec::with_capacity(16 + 24 * plan.placements.len());
    lines.extend(b"PLAN ");
    let running = plan.programmes.iter().filter(|programme| !programme.is_empty()).count();
    put_line(&mut lines, &[running as u64, plan.claim.into()]);
    for (task, placement) in (0..).zip(&plan.placements) {
        let Placement { processor, start, finish } = *placement;
        put_line(&mut lines, &[task, processor.into(), start.into(), finish.into()]);
    }
    lines
}

/// The line of a refusal.
fn refusal_line(refusal: Refusal) -> Vec<u8> {
    let mut line = b"REFUSED ".to_vec();
    put_line(&mut line, &[refusal.number.into(), refusal.place]);
    line
}

/// The fields in decimal, one space between, and the byte that ends the line.
fn put_line(out: &mut Vec<u8>, fields: &[u64]) {
    for (i, &field) in fields.iter().enumerate() {
        if i > 0 {
            out.push(b' ');
        }
        put_decimal(out, field);
    }
    out.push(b'\n');
}

fn put_decimal(out: &mut Vec<u8>, mut number: u64) {
    let start = out.len();
    loop {
        out.push(b'0' + (number % 10) as u8);
        number /= 10;
        if number == 0 {
            break;
        }
    }
    out[start..].reverse();
}

#[cfg(test)]
mod tests {
    use super::*;

    #[test]
    fn numbers_are_decimal() {
        for number in [0, 1, 9, 10, 99, 100, 65_535, u64::MAX] {
            let mut text = Vec::new();
            put_decimal(&mut text, number);
            assert_eq!(text, number.to_string().into_bytes());
        }
    }
}
