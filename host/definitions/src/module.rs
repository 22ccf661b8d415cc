//! antt modules with a declaration for each case.

use crate::question::{Case, Question};

/// The imports of a module.
pub const HEAD: &str = "\
use Rattle.std.specs.Prelude.{List, [], ◌∷◌, ◌≡◌, refl}
use Rattle.record.specs.Run.{run_read, run_write, run_lookup}
";

/// The theorem that the definition gives what is expected.
pub fn theorem(number: usize, case: &Case) -> String {
    let (runner, arguments) = (case.question.runner(), case.question.arguments());
    let expected = case.expected.antt();
    format!("c{number} : {runner} {arguments} ≡ {expected}\nunfolding {runner}\nc{number} = refl\n")
}

/// A declaration with a hole whose goal holds what the definition gives.
pub fn hole(number: usize, question: &Question, runners: Runners) -> String {
    let (runner, arguments) = (runners.of(question), question.arguments());
    format!("c{number} : {runner} {arguments} ≡ []\nunfolding {runner}\nc{number} = ?h\n")
}

/// The runners of Run.antt, or runners that are equal to them and go through a text or record
/// once only. antt shows what takes at most so many steps, and the latter take fewer.
#[derive(Clone, Copy, Debug, Eq, PartialEq)]
pub enum Runners {
    AsDefined,
    Once,
}

impl Runners {
    pub fn head(self) -> String {
        match self {
            Self::AsDefined => HEAD.to_string(),
            Self::Once => HEAD.to_string() + ONCE,
        }
    }

    fn of(self, question: &Question) -> &'static str {
        match (self, question) {
            (Self::Once, Question::Read { .. }) => "once_read",
            (Self::Once, Question::Write { .. }) => "once_write",
            _ => question.runner(),
        }
    }
}

const ONCE: &str = "\
use Rattle.std.specs.Prelude.{ℕ}
use Rattle.record.specs.Calls
use Rattle.record.specs.Run.{buffer}

unfoldable once : Calls.Result → ℕ → List (List ℕ)
unfolding run_read
once result room =
    let after = Calls.leaves result (buffer room) in
    Calls.printed (Calls.answer result room) after ∷ after ∷ []

unfoldable once_read : ℕ → ℕ → List ℕ → List (List ℕ)
unfolding once
once_read work room text =
    let result = Calls.read_result text work in
    once result room

unfoldable once_write : ℕ → List ℕ → List (List ℕ)
unfolding once
once_write room record_bytes =
    let result = Calls.write_result record_bytes in
    once result room
";

#[cfg(test)]
mod tests {
    use super::*;

    #[test]
    fn a_case_is_a_theorem() {
        let (name, record) = (b"a".to_vec(), Vec::new());
        let question = Question::Lookup { name, record };
        let case = question.clone().asked(String::new()).expect("a case");
        let theorem = theorem(7, &case);
        let expected = "c7 : run_lookup (97 ∷ []) [] ≡ 31 ∷ 0 ∷ 0 ∷ []\n\
                        unfolding run_lookup\nc7 = refl\n";
        assert_eq!(theorem, expected);
        let hole = hole(7, &question, Runners::Once);
        assert!(hole.starts_with("c7 : run_lookup (97 ∷ []) [] ≡ []\n"));
        assert!(hole.ends_with("c7 = ?h\n"));
    }
}
