//! "Did you mean": the known word that is nearest to a mistyped one.

/// The first of the nearest known words, where few enough letters are wrong: at most a third of them, and two.
pub fn suggest<'a>(word: &str, known: impl IntoIterator<Item = &'a str>) -> Option<&'a str> {
    let most = (word.chars().count() / 3).clamp(1, 2);
    let near = known
        .into_iter()
        .map(|name| (distance(word, name), name))
        .filter(|(wrong, _)| *wrong <= most);
    near.min_by_key(|(wrong, _)| *wrong).map(|(_, name)| name)
}

/// How many letters have to be put in, left out, changed or exchanged with their neighbour to make one word of the other.
fn distance(a: &str, b: &str) -> usize {
    let (a, b): (Vec<char>, Vec<char>) = (a.chars().collect(), b.chars().collect());
    let mut rows = vec![(0..=b.len()).collect::<Vec<usize>>()];
    for i in 1..=a.len() {
        let mut row = vec![i];
        for j in 1..=b.len() {
            let same = usize::from(a[i - 1] != b[j - 1]);
            let mut least = (rows[i - 1][j - 1] + same).min(rows[i - 1][j] + 1).min(row[j - 1] + 1);
            if i > 1 && j > 1 && a[i - 1] == b[j - 2] && a[i - 2] == b[j - 1] {
                least = least.min(rows[i - 2][j - 2] + 1);
            }
            row.push(least);
        }
        rows.push(row);
    }
    rows[a.len()][b.len()]
}

#[cfg(test)]
mod tests {
    use super::*;

    #[test]
    fn distances() {
        for (a, b, wrong) in [
            ("", "abc", 3),
            ("plot", "plot", 0),
            ("plto", "plot", 1),
            ("gird", "grid", 1),
            ("kitten", "sitting", 3),
        ] {
            assert_eq!((distance(a, b), distance(b, a)), (wrong, wrong), "{a} {b}");
        }
    }

    #[test]
    fn nearest_word() {
        let known = ["make", "run", "show", "plot"];
        for (word, meant) in [
            ("mke", Some("make")),
            ("shwo", Some("show")),
            ("rnu", Some("run")),
            ("plots", Some("plot")),
            ("draw", None),
            ("", None),
        ] {
            assert_eq!(suggest(word, known), meant, "{word}");
        }
    }
}
