//! Which of some names a mistyped one may be.

/// The name that is nearest to a given one: at most two letters differ, and fewer than half.
pub fn nearest<'a>(given: &str, names: impl IntoIterator<Item = &'a str>) -> Option<&'a str> {
    let given: Vec<char> = given.chars().take(LONGEST + 1).collect();
    if given.len() > LONGEST {
        return None;
    }
    let near = names.into_iter().filter_map(|name| {
        let changes = distance(&given, name)?;
        (changes <= 2 && 2 * changes < given.len()).then_some((changes, name))
    });
    near.min_by_key(|(changes, _)| *changes)
        .map(|(_, name)| name)
}

/// Longer names are not compared.
const LONGEST: usize = 64;

/// How many letters must be put in, taken out or changed to make the name of the given one; the
/// case of ASCII letters does not matter. None where their lengths are too far apart.
fn distance(given: &[char], name: &str) -> Option<usize> {
    let name: Vec<char> = name.chars().take(LONGEST + 1).collect();
    if name.len().abs_diff(given.len()) > 2 {
        return None;
    }
    // The row has the distances of what was taken of the given name to each front of the other.
    let mut row: Vec<usize> = (0..=name.len()).collect();
    for (taken, letter) in given.iter().enumerate() {
        let mut slant = row[0];
        row[0] = taken + 1;
        for (at, other) in name.iter().enumerate() {
            let changed = slant + usize::from(!letter.eq_ignore_ascii_case(other));
            slant = row[at + 1];
            row[at + 1] = changed.min(slant + 1).min(row[at] + 1);
        }
    }
    row.last().copied()
}

#[cfg(test)]
mod tests {
    use super::*;

    #[test]
    fn the_nearest_name() {
        let verbs = ["read", "write", "lookup", "check", "show", "explain"];
        let near = |given| nearest(given, verbs);
        assert_eq!(near("chek"), Some("check"));
        assert_eq!(near("wirte"), Some("write"));
        assert_eq!(near("EXPLAN"), Some("explain"));
        assert_eq!(near("shwo"), None);
        assert_eq!(near("parse"), None);
        assert_eq!(near(""), None);
        assert_eq!(near("read"), Some("read"));
        assert_eq!(nearest("Gorila", ["Gorilla", "Pan"]), Some("Gorilla"));
        assert_eq!(nearest(&"a".repeat(1_000), ["a"]), None);
    }
}
