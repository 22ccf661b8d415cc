//! A chosen question with the oracle's answer, as a theorem.

use definitions::questions::{Asked, Call, Lent};
use oracle::answer::{self, Answer};

use super::spelled::antt;
use crate::question::{numbers, work_needed};

/// The length of a buffer for a call that is refused before its buffer matters.
const LITTLE: usize = 2;

pub struct Theorem {
    /// The declaration, with the comment before it.
    pub text: String,
    /// The names that it uses.
    pub words: Vec<&'static str>,
}

pub fn theorem(number: usize, asked: &Asked) -> Result<Theorem, String> {
    let sides = sides(&asked.call).map_err(|error| format!("{}: {error}", asked.shows))?;
    let (shows, left, right) = (&asked.shows, &sides.left, &sides.right);
    let unfolding = sides.unfolding.join(" ");
    let text = format!(
        "-- {shows}\nc{number} :\n    {left}\n    ≡ {right}\nunfolding {unfolding}\nc{number} = refl\n"
    );
    let mut words = vec!["◌≡◌", "refl"];
    let used = emptied(left) + &emptied(right);
    for (name, sign) in [
        ("[]", "[]"),
        ("◌∷◌", " ∷ "),
        ("◌++◌", "\" ++ ("),
        ("bytes", "bytes \""),
    ] {
        if used.contains(sign) {
            words.push(name);
        }
    }
    words.extend(sides.unfolding);
    Ok(Theorem { text, words })
}

/// A term without what stands in its texts, which names nothing.
fn emptied(term: &str) -> String {
    let mut emptied = String::new();
    let (mut inside, mut escaped) = (false, false);
    for c in term.chars() {
        let ends = c == '"' && !escaped;
        if ends || !inside {
            emptied.push(c);
        }
        inside ^= ends;
        escaped = c == '\\' && !escaped;
    }
    emptied
}

/// The two sides of the equation, and the definitions that they open.
struct Sides {
    left: String,
    right: String,
    unfolding: Vec<&'static str>,
}

fn sides(call: &Call) -> Result<Sides, String> {
    match call {
        Call::Read {
            lent,
            little_work,
            text,
        } => {
            let work = work_needed(text) - u64::from(*little_work);
            let runner = if *little_work {
                "read_with_little"
            } else {
                "read"
            };
            called(runner, text, *lent, |room| answer::read(text, work, room))
        }
        Call::Write { lent, record } => {
            called("write", record, *lent, |room| answer::write(record, room))
        }
        Call::Lookup { name, record } => Ok(looked_up(name, record)),
    }
}

/// A call with a buffer. The answer is asked for twice: without a limit, which tells how long the
/// buffer is to be, and with that buffer.
fn called(
    runner: &'static str,
    asked: &[u8],
    lent: Lent,
    answer: impl Fn(u64) -> Answer,
) -> Result<Sides, String> {
    let room = room(answer(answer::ENOUGH), lent)?;
    let (right, word) = match answer(room as u64) {
        Answer::Bytes(bytes) => {
            let spare = room - bytes.len();
            (format!("answered {spare} ({})", antt(&bytes)), "answered")
        }
        Answer::Refused(r) => {
            let place = format!("{} {}", r.line, r.column);
            (format!("refused {} {place} {room}", r.number), "refused")
        }
        Answer::Beyond(_) => return Err("the text is beyond the reader".to_string()),
    };
    Ok(Sides {
        left: format!("{runner} {room} {}", argument(asked)),
        right,
        unfolding: vec![runner, word],
    })
}

fn room(unlimited: Answer, lent: Lent) -> Result<usize, String> {
    match (unlimited, lent) {
        (Answer::Bytes(bytes), Lent::OneMore) => Ok(bytes.len() + 1),
        (Answer::Bytes(bytes), Lent::Full) => Ok(bytes.len()),
        (Answer::Bytes(bytes), Lent::OneShort) => Ok(bytes.len() - 1),
        (_, Lent::OneMore) => Ok(LITTLE),
        _ => Err("it is refused whatever the buffer".to_string()),
    }
}

fn looked_up(name: &[u8], record: &[u8]) -> Sides {
    let lines = answer::lookup(name, record);
    let three = numbers(&lines).expect("an answer of three lines");
    let numbers: String = three.iter().map(|number| format!("{number} ∷ ")).collect();
    Sides {
        left: format!("run_lookup {} {}", argument(name), argument(record)),
        right: format!("{numbers}[]"),
        unfolding: vec!["run_lookup"],
    }
}

fn argument(bytes: &[u8]) -> String {
    if bytes.is_empty() {
        return "[]".to_string();
    }
    format!("({})", antt(bytes))
}

#[cfg(test)]
mod tests {
    use super::*;

    fn shown(call: Call) -> String {
        let shows = "It shows this.".to_string();
        theorem(3, &Asked { shows, call }).expect("a theorem").text
    }

    #[test]
    fn a_refusal_has_its_place() {
        let text = b"X".to_vec();
        let (lent, little_work) = (Lent::OneMore, false);
        let call = Call::Read {
            lent,
            little_work,
            text,
        };
        let expected = "-- It shows this.\nc3 :\n    read 2 (bytes \"X\")\n    ≡ refused 6 1 1 2\n\
                        unfolding read refused\nc3 = refl\n";
        assert_eq!(shown(call), expected);
    }

    #[test]
    fn a_lookup_has_three_numbers() {
        let (name, record) = (b"a".to_vec(), Vec::new());
        let theorem = shown(Call::Lookup { name, record });
        assert!(theorem.contains("run_lookup (bytes \"a\") []\n    ≡ 31 ∷ 0 ∷ 0 ∷ []\n"));
    }

    #[test]
    fn texts_name_nothing() {
        assert_eq!(
            emptied(r#"bytes "a[]\"[]\\" ++ (0 ∷ [])"#),
            r#"bytes "" ++ (0 ∷ [])"#
        );
        let words = |record: &[u8]| {
            let (lent, record) = (Lent::OneMore, record.to_vec());
            let (shows, call) = (String::new(), Call::Write { lent, record });
            theorem(1, &Asked { shows, call }).expect("a theorem").words
        };
        let named = ["◌≡◌", "refl", "bytes", "write", "refused"];
        assert_eq!(words(b"a[] \" ++ ("), named);
        let named = ["◌≡◌", "refl", "[]", "◌∷◌", "write", "refused"];
        assert_eq!(words(b"\xff"), named);
    }

    #[test]
    fn a_refused_call_has_no_full_buffer() {
        let (lent, record) = (Lent::Full, Vec::new());
        assert!(sides(&Call::Write { lent, record }).is_err());
    }
}
