//! What a runner of the definitions gives: as antt writes it, and as a reader sees it.

/// The byte that every place of a lent buffer holds before a call, as `buffer` in Run.antt has it.
pub const BEFORE: u8 = 170;

const NO_ROOM: &[u8] = b"refused=30\nline=0\ncolumn=0\n";

#[derive(Clone, Debug, Eq, PartialEq)]
pub enum Value {
    /// Of a lookup: its refusal, start and length.
    Numbers(Vec<u64>),
    /// Of a read or a write: what the program prints, and what the call leaves in the buffer.
    Lists(Vec<Vec<u64>>),
}

impl Value {
    /// The value of a read or a write with this answer and a buffer of so many bytes. A refusal
    /// leaves the buffer as it was, and an answer touches its own bytes alone.
    pub fn of_call(answer: &[u8], room: usize) -> Self {
        let mut buffer = vec![BEFORE; room];
        if !is_refusal(answer) {
            buffer[..answer.len()].copy_from_slice(answer);
        }
        let numbers = |bytes: &[u8]| bytes.iter().copied().map(u64::from).collect();
        Self::Lists(vec![numbers(answer), numbers(&buffer)])
    }

    /// Whether a call is refused because its buffer is too short.
    pub fn lacks_room(&self) -> bool {
        match self {
            Self::Numbers(_) => false,
            Self::Lists(lists) => {
                let printed = lists.first().into_iter().flatten();
                printed.copied().eq(NO_ROOM.iter().copied().map(u64::from))
            }
        }
    }

    /// The value as antt writes it.
    pub fn antt(&self) -> String {
        match self {
            Self::Numbers(numbers) => joined(numbers.iter().map(u64::to_string)),
            Self::Lists(lists) => joined(lists.iter().map(|list| {
                let numbers = joined(list.iter().map(u64::to_string));
                in_brackets(numbers)
            })),
        }
    }

    /// The value in words.
    pub fn words(&self) -> String {
        match self {
            Self::Numbers(numbers) => match numbers[..] {
                [refused, start, length] => {
                    format!("refused={refused} start={start} length={length}")
                }
                _ => format!("{numbers:?}"),
            },
            Self::Lists(lists) => match &lists[..] {
                [printed, left] => format!("{} {}", quoted(printed), buffer(printed, left)),
                _ => format!("{lists:?}"),
            },
        }
    }
}

/// Whether an answer is a refusal. A record begins with `datatype=` and a form with `#NEXUS`.
pub fn is_refusal(answer: &[u8]) -> bool {
    answer.starts_with(b"refused=")
}

/// Bytes as an argument of a function.
pub fn antt_bytes(bytes: &[u8]) -> String {
    in_brackets(joined(bytes.iter().map(u8::to_string)))
}

fn joined(items: impl Iterator<Item = String>) -> String {
    items.map(|item| item + " ∷ ").collect::<String>() + "[]"
}

fn in_brackets(list: String) -> String {
    if list == "[]" {
        list
    } else {
        format!("({list})")
    }
}

/// Bytes in double quotes, those that are not printable ASCII escaped.
pub fn escaped(bytes: &[u8]) -> String {
    let text = bytes.escape_ascii().to_string().replace("\\'", "'");
    format!("\"{text}\"")
}

/// The same of numbers that should be bytes.
fn quoted(numbers: &[u64]) -> String {
    let bytes: Result<Vec<u8>, _> = numbers.iter().map(|&n| u8::try_from(n)).collect();
    bytes.map_or_else(|_| format!("{numbers:?}"), |bytes| escaped(&bytes))
}

/// What was left in the buffer, said shortly where nothing or just the answer was written.
fn buffer(printed: &[u64], left: &[u64]) -> String {
    let untouched = |bytes: &[u64]| bytes.iter().all(|&byte| byte == u64::from(BEFORE));
    let length = left.len();
    if untouched(left) {
        return format!("and leaves the buffer of {length} untouched");
    }
    match left.strip_prefix(printed) {
        Some(rest) if untouched(rest) => {
            let rest = rest.len();
            format!("in the buffer of {length}, {rest} untouched")
        }
        _ => format!("and leaves in the buffer {}", quoted(left)),
    }
}

#[cfg(test)]
mod tests {
    use super::*;

    const REFUSAL: &[u8] = b"refused=6\nline=1\ncolumn=1\n";

    #[test]
    fn a_refusal_touches_nothing() {
        let Value::Lists(lists) = Value::of_call(REFUSAL, 2) else {
            panic!("a call gives lists")
        };
        assert_eq!(lists[0].len(), REFUSAL.len());
        assert_eq!(lists[1], [170, 170]);
    }

    #[test]
    fn an_answer_touches_its_own_bytes() {
        let value = Value::of_call(b"ab", 3);
        assert_eq!(value, Value::Lists(vec![vec![97, 98], vec![97, 98, 170]]));
        assert_eq!(value.antt(), "(97 ∷ 98 ∷ []) ∷ (97 ∷ 98 ∷ 170 ∷ []) ∷ []");
    }

    #[test]
    fn a_buffer_can_be_too_short() {
        assert!(Value::of_call(NO_ROOM, 2).lacks_room());
        assert!(!Value::of_call(REFUSAL, 2).lacks_room());
        assert!(!Value::Numbers(vec![30, 0, 0]).lacks_room());
    }

    #[test]
    fn empty_lists_have_no_brackets() {
        assert_eq!(antt_bytes(b""), "[]");
        assert_eq!(Value::of_call(b"", 0).antt(), "[] ∷ [] ∷ []");
        assert_eq!(Value::Numbers(vec![33, 0, 0]).antt(), "33 ∷ 0 ∷ 0 ∷ []");
    }

    #[test]
    fn bytes_are_escaped() {
        assert_eq!(escaped(b"a'\"\\\n\xff\x00"), r#""a'\"\\\n\xff\x00""#);
        assert_eq!(quoted(&[97, 256]), "[97, 256]");
    }

    #[test]
    fn words_say_what_the_buffer_holds() {
        let words = |printed: &[u64], left: &[u64]| {
            Value::Lists(vec![printed.to_vec(), left.to_vec()]).words()
        };
        assert_eq!(
            words(&[97], &[97, 170]),
            "\"a\" in the buffer of 2, 1 untouched"
        );
        assert_eq!(
            words(&[97], &[170]),
            "\"a\" and leaves the buffer of 1 untouched"
        );
        assert_eq!(words(&[97], &[98]), "\"a\" and leaves in the buffer \"b\"");
        let found = Value::Numbers(vec![0, 60, 5]);
        assert_eq!(found.words(), "refused=0 start=60 length=5");
    }
}
