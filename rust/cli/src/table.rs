//! Lines of columns: words to the left, numbers to the right.

/// The rows with each column as wide as its widest cell; a column whose cells below the first row
/// are numbers stands to the right.
pub fn aligned(rows: &[Vec<String>]) -> String {
    let columns = rows.iter().map(Vec::len).max().unwrap_or(0);
    let column = |number: usize| rows.iter().filter_map(move |row| row.get(number));
    let widths: Vec<usize> = (0..columns)
        .map(|number| column(number).map(|cell| width(cell)).max().unwrap_or(0))
        .collect();
    let numeric: Vec<bool> = (0..columns)
        .map(|number| number > 0 && column(number).skip(1).all(|cell| is_number(cell)))
        .collect();
    let mut text = String::new();
    for row in rows {
        let mut line = String::new();
        for (number, cell) in row.iter().enumerate() {
            let gap = " ".repeat(widths[number] - width(cell));
            let between = if number > 0 { "  " } else { "" };
            line += between;
            match numeric[number] {
                true => line += &(gap + cell),
                false => line += &(cell.clone() + &gap),
            }
        }
        text += line.trim_end();
        text.push('\n');
    }
    text
}

/// How many columns of a terminal a text takes.
pub fn width(text: &str) -> usize {
    text.chars().map(columns).sum()
}

/// How many columns of a terminal a character takes: none for marks that go over the one before, two
/// for the wide characters of East Asia and for pictures.
pub fn columns(c: char) -> usize {
    match c as u32 {
        0x300..=0x36F | 0x200B..=0x200F | 0xFE00..=0xFE0F => 0,
        0x1100..=0x115F
        | 0x2E80..=0xA4CF
        | 0xAC00..=0xD7A3
        | 0xF900..=0xFAFF
        | 0xFE30..=0xFE6F
        | 0xFF00..=0xFF60
        | 0xFFE0..=0xFFE6
        | 0x1F300..=0x1FAFF
        | 0x20000..=0x3FFFD => 2,
        _ => 1,
    }
}

fn is_number(cell: &str) -> bool {
    cell.chars().all(|c| c.is_ascii_digit() || c == '-' || c == '+')
}
