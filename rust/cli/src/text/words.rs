//! A line of a text as words, each with its column.

/// A word: bare, in quotes, or the arrow between two tasks.
#[derive(Clone, Debug, PartialEq, Eq)]
pub enum Word {
    Bare(String),
    Quoted(String),
    Arrow,
}

impl Word {
    /// The word in a message.
    pub fn shown(&self) -> String {
        match self {
            Word::Bare(text) | Word::Quoted(text) => quoted_short(text),
            Word::Arrow => "\"->\"".into(),
        }
    }
}

/// A text in quotes for a message, cut where it is long.
pub fn quoted_short(text: &str) -> String {
    const MOST: usize = 40;
    match text.chars().nth(MOST) {
        None => format!("\"{text}\""),
        Some(_) => format!("\"{}...\"", text.chars().take(MOST).collect::<String>()),
    }
}

/// The words of a line, each with its column, counted from 1 in characters.
pub struct Words {
    pub words: Vec<(usize, Word)>,
    /// The column behind the last word.
    pub end: usize,
}

/// The words of a line up to its comment; or a column and what is wrong there.
pub fn words(line: &str) -> Result<Words, (usize, String)> {
    let (mut words, mut end) = (Vec::new(), 1);
    let mut rest = line.chars().zip(1..).peekable();
    while let Some(&(first, column)) = rest.peek() {
        if first.is_whitespace() {
            rest.next();
            continue;
        }
        let word = match first {
            '#' => break,
            '"' => {
                rest.next();
                Word::Quoted(quoted(&mut rest).map_err(|told| (column, told))?)
            }
            _ => bare(&mut rest),
        };
        words.push((column, word));
        end = rest.peek().map_or_else(|| line.chars().count() + 1, |&(_, column)| column);
    }
    Ok(Words { words, end })
}

type Rest<'a> =
    std::iter::Peekable<std::iter::Zip<std::str::Chars<'a>, std::ops::RangeFrom<usize>>>;

/// The rest of a word in quotes, behind the first of them.
fn quoted(rest: &mut Rest) -> Result<String, String> {
    let mut text = String::new();
    while let Some((c, _)) = rest.next() {
        match c {
            '"' => return Ok(text),
            '\\' => match rest.next() {
                Some((c @ ('"' | '\\'), _)) => text.push(c),
                _ => return Err("behind \\ in quotes comes \" or \\".into()),
            },
            _ => text.push(c),
        }
    }
    Err("the quotes are not closed in this line".into())
}

/// A word without quotes, or the arrow.
fn bare(rest: &mut Rest) -> Word {
    let mut text = String::new();
    while let Some(&(c, _)) = rest.peek() {
        if c.is_whitespace() || c == '#' || c == '"' {
            break;
        }
        if c == '-' {
            let mut ahead = rest.clone();
            ahead.next();
            if ahead.peek().is_some_and(|&(c, _)| c == '>') {
                if text.is_empty() {
                    rest.next();
                    rest.next();
                    return Word::Arrow;
                }
                break;
            }
        }
        text.push(c);
        rest.next();
    }
    Word::Bare(text)
}

/// Whether a name can stand without quotes.
pub fn is_bare(name: &str) -> bool {
    name.chars().next().is_some_and(|first| !first.is_ascii_digit())
        && name.chars().all(|c| c.is_alphanumeric() || matches!(c, '_' | '.' | '-'))
}

/// A name is not empty and has no control character, which a line or a picture could not hold.
pub fn checked_name(name: &str) -> Result<(), String> {
    match name {
        "" => Err("a name is not empty".into()),
        _ if name.chars().any(char::is_control) => Err("a name has no control characters".into()),
        _ => Ok(()),
    }
}
