//! The commands of a text, as rove's lexer gives their tokens.

use crate::lexer::{Kind, Token};

/// The commands of a text: what stands between the `;` tokens, newlines left out. Text after
/// the last `;` is one more command.
pub(crate) fn commands(tokens: &[Token]) -> Vec<Vec<&Token>> {
    tokens
        .split(|token| token.punct(';'))
        .map(|command| {
            let words = command.iter().filter(|token| token.kind != Kind::Newline);
            words.collect::<Vec<_>>()
        })
        .filter(|command| !command.is_empty())
        .collect()
}
