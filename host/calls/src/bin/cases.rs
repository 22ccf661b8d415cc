//! Writes data/questions and stdout of crates/cases, from the questions of `calls::cases` and the
//! oracle.

use std::fs;
use std::path::Path;

use calls::Question;
use calls::cases::{file, printed, questions};

fn main() -> Result<(), String> {
    let folder = Path::new(env!("CARGO_MANIFEST_DIR")).join("../../crates/cases");
    let questions = questions()?;
    for (name, bytes) in [
        ("data/questions", file(&questions)),
        ("stdout", printed(&questions)),
    ] {
        let path = folder.join(name);
        fs::write(&path, bytes).map_err(|error| format!("{}: {error}", path.display()))?;
    }
    let count = |of: fn(&Question) -> bool| questions.iter().filter(|q| of(q)).count();
    println!(
        "{} texts, {} records, {} lookups",
        count(|question| matches!(question, Question::Text(_))),
        count(|question| matches!(question, Question::Record(_))),
        count(|question| matches!(question, Question::Lookup { .. })),
    );
    Ok(())
}
