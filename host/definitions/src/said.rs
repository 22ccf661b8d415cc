//! What rt and antt print: which declarations are refused, which crates are proved, and the
//! values in goals.

use std::collections::BTreeMap;

use crate::value::Value;

/// The cases that an error names, each with what antt says first.
pub fn refused(output: &str) -> BTreeMap<usize, String> {
    let errors = output.lines().filter_map(|line| {
        let (_, error) = line.split_once(": error: `c")?;
        let (number, reason) = error.split_once('`')?;
        let reason = reason.trim_start_matches(':').trim_start();
        Some((number.parse().ok()?, reason.to_string()))
    });
    let mut refused = BTreeMap::new();
    for (number, reason) in errors {
        refused.entry(number).or_insert(reason);
    }
    refused
}

/// How a crate's check ended.
#[derive(Debug, Eq, PartialEq)]
pub enum End {
    Proved,
    /// With rt's words.
    NotProved(String),
    /// The toolchain failed, or rt says nothing of the crate.
    Broken(String),
}

pub fn end(output: &str, name: &str) -> End {
    let Some((verdict, said)) = verdict(output, name) else {
        let last = output.lines().last().unwrap_or("rt printed nothing");
        return End::Broken(last.to_string());
    };
    if verdict == "ok" && said.iter().any(|line| line.starts_with("logic=proved ")) {
        return End::Proved;
    }
    let why = said.iter().find(|line| line.contains("no verdict"));
    let why = why.or_else(|| said.iter().find(|line| line.contains("error")));
    let reason = format!("{verdict}: {}", why.or(said.last()).unwrap_or(&""));
    match verdict {
        "failed (1)" | "failed (3)" => End::NotProved(reason),
        _ => End::Broken(reason),
    }
}

/// rt's verdict on a crate, which stands in its summary, and the lines about it that stand before,
/// under the crate's own head.
fn verdict<'a>(output: &'a str, name: &str) -> Option<(&'a str, Vec<&'a str>)> {
    let (mut said, mut verdict) = (Vec::new(), None);
    let mut head = "";
    for line in output.lines() {
        if let Some(next) = line.strip_prefix("== ") {
            head = next;
        } else if head == name {
            said.push(line);
        } else if head == "summary" {
            let (of, found) = line.split_once(": ").unwrap_or_default();
            verdict = verdict.or(Some(found).filter(|_| of == name));
        }
    }
    Some((verdict?, said))
}

/// What the goal of each case shows, or why it shows nothing.
pub fn goals(output: &str) -> BTreeMap<usize, Result<Value, String>> {
    let mut goals = BTreeMap::new();
    let mut lines = output.lines().peekable();
    while let Some(line) = lines.next() {
        let Some((_, goal)) = line.split_once(": goal ?h in `c") else {
            continue;
        };
        let number = goal.split('`').next().and_then(|n| n.parse().ok());
        let mut block = line.to_string();
        while let Some(more) = lines.next_if(|next| next.starts_with(' ')) {
            block.push('\n');
            block.push_str(more);
        }
        if let Some(number) = number {
            goals.insert(number, goal_value(&block));
        }
    }
    goals
}

/// Why a goal shows no value, where its steps do not suffice.
pub const TOO_MANY_STEPS: &str = "computing it takes more steps than antt's display has";

fn goal_value(block: &str) -> Result<Value, String> {
    let unfolded = block.split_once("(unfolded:");
    if let Some(term) = unfolded.and_then(|(_, term)| term.trim_start().strip_prefix("Path ")) {
        if term.contains('…') {
            return Err("antt's display cut it".to_string());
        }
        return value(after_type(term)?);
    }
    if block.contains("normal form not shown: computing it took more than") {
        return Err(TOO_MANY_STEPS.to_string());
    }
    Err("antt shows no computed value in the goal".to_string())
}

/// What stands after the type, which is in brackets.
fn after_type(term: &str) -> Result<&str, String> {
    let mut depth = 0;
    for (at, c) in term.char_indices() {
        match c {
            '(' => depth += 1,
            ')' => depth -= 1,
            _ => {}
        }
        if depth == 0 {
            return Ok(&term[at + c.len_utf8()..]);
        }
    }
    Err("the goal's type is not closed".to_string())
}

#[derive(Debug)]
enum Term {
    Number(u64),
    List(Vec<Term>),
}

fn value(term: &str) -> Result<Value, String> {
    let words = spaced(term);
    let mut words = words.split_whitespace();
    match atom(&mut words)? {
        Term::List(items) => as_value(items),
        Term::Number(number) => Err(format!("the goal shows the number {number}")),
    }
}

/// The term with blanks around its brackets.
fn spaced(term: &str) -> String {
    term.replace('(', " ( ").replace(')', " ) ")
}

type Words<'a> = std::str::SplitWhitespace<'a>;

fn atom(words: &mut Words) -> Result<Term, String> {
    match words.next() {
        Some("[]") => Ok(Term::List(Vec::new())),
        Some("(") => in_brackets(words),
        Some(word) => word
            .parse()
            .map(Term::Number)
            .map_err(|_| format!("the goal shows `{word}` where a number or a list should be")),
        None => Err("the goal ends inside a list".to_string()),
    }
}

/// Items joined by `∷` up to the closing bracket. The last one is the list's rest.
fn in_brackets(words: &mut Words) -> Result<Term, String> {
    let mut items = vec![atom(words)?];
    loop {
        match words.next() {
            Some("∷") => items.push(atom(words)?),
            Some(")") => break,
            other => return Err(format!("the goal shows {other:?} inside a list")),
        }
    }
    match items.pop() {
        Some(Term::List(rest)) => {
            items.extend(rest);
            Ok(Term::List(items))
        }
        last => Err(format!("the goal shows a list that ends in {last:?}")),
    }
}

fn as_value(items: Vec<Term>) -> Result<Value, String> {
    if let [Term::List(_), ..] = items[..] {
        let lists = items.into_iter().map(|item| match item {
            Term::List(inner) => as_numbers(inner),
            Term::Number(_) => Err("the goal shows a number among lists".to_string()),
        });
        return lists.collect::<Result<_, _>>().map(Value::Lists);
    }
    as_numbers(items).map(Value::Numbers)
}

fn as_numbers(items: Vec<Term>) -> Result<Vec<u64>, String> {
    let numbers = items.into_iter().map(|item| match item {
        Term::Number(number) => Ok(number),
        Term::List(_) => Err("the goal shows a list among numbers".to_string()),
    });
    numbers.collect()
}

#[cfg(test)]
mod tests {
    use super::*;

    const CHECK: &str = "\
== record
== vectors1
note: no function with a body is declared, so nothing was lowered
logic=proved functions=0 sum=d native=nat
== vectors0
./specs/V0.antt:11:6: error: `c1`: as printed, the two types differ only where
  computed as far as they go, the two types differ only where one has `50` and `49`
./specs/V0.antt:17:1: note: a trial run was refused too. (in `c3`)
./specs/V0.antt:19:6: error: `c3`: expected type `x`
./specs/V0.antt:20:6: error: `once`: expected type `x`
logic=not-proved
== summary
record: ok
vectors0: failed (1)
vectors1: ok
(1: not proved or not passed, 2: rattle failed, 3: antt could not tell)
2 of 3 crates ok
";

    #[test]
    fn errors_name_their_cases() {
        let refused = refused(CHECK);
        let numbers: Vec<usize> = refused.keys().copied().collect();
        assert_eq!(numbers, [1, 3]);
        assert!(refused[&1].starts_with("as printed, the two types"));
    }

    #[test]
    fn each_crate_has_an_end() {
        assert_eq!(end(CHECK, "vectors1"), End::Proved);
        let End::NotProved(reason) = end(CHECK, "vectors0") else {
            panic!("it is not proved")
        };
        assert!(reason.starts_with("failed (1): ./specs/V0.antt:11"));
        // Nothing about a crate is no proof, and neither is a verdict without one.
        let silent = End::Broken("2 of 3 crates ok".to_string());
        assert_eq!(end(CHECK, "vectors2"), silent);
        let unsaid = End::Broken("ok: ".to_string());
        assert_eq!(end(CHECK, "record"), unsaid);
        let broken = "== vectors0\n== summary\nvectors0: failed (2)\n";
        assert!(matches!(end(broken, "vectors0"), End::Broken(_)));
        let left = "== summary\nvectors0: not run, since record failed\n";
        assert!(matches!(end(left, "vectors0"), End::Broken(_)));
    }

    const GOALS: &str = "\
./specs/V0.antt:10:1: `c1` is not admitted: has-holes
./specs/V0.antt:12:7: goal ?h in `c1`
    unfolding run_read
  ⊢ run_read
      780
      (35 ∷
        []) ≡
      []
    (unfolded:
      Path (List (List Prim.Native.Nat.ℕ)) ((97 ∷
        10 ∷ []) ∷ [] ∷ []) [])
./specs/V0.antt:14:1: `c2` is not admitted: has-holes
./specs/V0.antt:16:7: goal ?h in `c2`
  ⊢ run_read 780 3 [] ≡ []
    (normal form not shown: computing it took more than 200000 steps — lift the type)
./specs/V0.antt:20:7: goal ?h in `c3`
  ⊢ run_lookup [] [] ≡ []  (unfolded: Path (List ℕ) (0 ∷ 62 ∷ 7 ∷ []) [])
./specs/V0.antt:24:7: goal ?h in `c4`
    (unfolded: Path (List ℕ) (0 ∷ …[168 bytes]… 7 ∷ []) [])
holes=4
";

    #[test]
    fn goals_show_values() {
        let goals = goals(GOALS);
        assert_eq!(goals.len(), 4);
        assert_eq!(goals[&1], Ok(Value::Lists(vec![vec![97, 10], vec![]])));
        assert_eq!(goals[&2], Err(TOO_MANY_STEPS.to_string()));
        assert_eq!(goals[&3], Ok(Value::Numbers(vec![0, 62, 7])));
        assert_eq!(goals[&4], Err("antt's display cut it".to_string()));
    }

    #[test]
    fn a_goal_that_is_no_list_of_numbers_is_told() {
        let told = |term| value(term).expect_err("no value");
        assert!(told("(97 ∷ f 3 ∷ [])").contains("`f`"));
        assert!(told("(97 ∷ 98)").contains("a list that ends in"));
        assert!(told("(97 ∷ [] ∷ [])").contains("a list among numbers"));
        assert!(told("(97 ∷").contains("ends inside a list"));
    }
}
