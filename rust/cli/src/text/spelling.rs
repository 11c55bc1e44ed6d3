//! What somebody may have meant who wrote a name that is not there.

/// The nearest of some names, as the end of a message; nothing if none is near.
pub fn meant<'a>(name: &str, names: impl Iterator<Item = &'a str>) -> String {
    // Nobody misspells a longer name into another.
    const LONGEST: usize = 64;
    let length = name.chars().take(LONGEST + 1).count();
    if length > LONGEST {
        return String::new();
    }
    let near = names
        .filter(|other| other.chars().count().abs_diff(length) <= 2)
        .map(|other| (distance(&name.to_lowercase(), &other.to_lowercase()), other))
        .filter(|&(distance, other)| distance <= 2 && distance < other.chars().count())
        .min();
    near.map_or(String::new(), |(_, other)| format!("; did you mean \"{other}\"?"))
}

/// How many characters have to be set, left out, added or exchanged with the next to make one text
/// of the other.
fn distance(one: &str, other: &str) -> usize {
    let [one, other] = [one, other].map(|text| text.chars().collect::<Vec<char>>());
    let mut table = vec![vec![0; other.len() + 1]; one.len() + 1];
    for i in 0..=one.len() {
        for j in 0..=other.len() {
            table[i][j] = match (i, j) {
                (0, length) | (length, 0) => length,
                _ => {
                    let set = table[i - 1][j - 1] + usize::from(one[i - 1] != other[j - 1]);
                    set.min(table[i - 1][j] + 1).min(table[i][j - 1] + 1)
                }
            };
            if i > 1 && j > 1 && one[i - 1] == other[j - 2] && one[i - 2] == other[j - 1] {
                table[i][j] = table[i][j].min(table[i - 2][j - 2] + 1);
            }
        }
    }
    table[one.len()][other.len()]
}
