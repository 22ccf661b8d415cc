//! The label commands of a sound text.

use super::draft::{Command, keyword, piece, spelled_name, spelled_value};
use super::rng::Rng;
use crate::data::Matrix;

/// Label commands that give a reading's labels.
pub fn label_commands(rng: &mut Rng, reading: &Matrix) -> Vec<Command> {
    let mut commands = Vec::new();
    let mut labels = reading.character_labels.clone();
    let mut states = reading.state_labels.clone();
    if labels.iter().all(Option::is_some) && rng.percent(50) {
        let mut command = vec![keyword(rng, "CHARLABELS")];
        let names = labels.iter().flatten();
        command.extend(names.map(|name| spelled_name(rng, name)));
        commands.push(command);
        labels.fill(None);
    }
    let stated = states.iter().any(|states| !states.is_empty()) && rng.percent(40);
    if stated {
        let entries = (0..states.len()).filter(|&c| !states[c].is_empty());
        let entries: Vec<Command> = entries
            .map(|character| state_entry(rng, character, &states[character]))
            .collect();
        commands.push(label_command(rng, "STATELABELS", entries));
        states.iter_mut().for_each(Vec::clear);
    }
    let labelled = |c: &usize| labels[*c].is_some() || !states[*c].is_empty();
    let entries: Vec<usize> = (0..labels.len()).filter(labelled).collect();
    if !entries.is_empty() {
        let entries = entries.into_iter().map(|character| {
            let label = labels[character].as_deref();
            entry(rng, character, label, &states[character], !stated)
        });
        let entries = entries.collect();
        commands.push(label_command(rng, "CHARSTATELABELS", entries));
    }
    commands
}

fn state_entry(rng: &mut Rng, character: usize, states: &[String]) -> Command {
    let mut entry = vec![spelled_value(rng, character + 1)];
    entry.extend(states.iter().map(|state| spelled_name(rng, state)));
    entry
}

/// An entry of CHARSTATELABELS. Without state labels it may have a `/` nevertheless, unless the
/// character's states are labelled elsewhere.
fn entry(
    rng: &mut Rng,
    character: usize,
    label: Option<&str>,
    states: &[String],
    bare_slash: bool,
) -> Command {
    let mut entry = vec![spelled_value(rng, character + 1)];
    entry.extend(label.map(|label| spelled_name(rng, label)));
    if !states.is_empty() || bare_slash && rng.percent(10) {
        entry.push(piece("/"));
    }
    entry.extend(states.iter().map(|state| spelled_name(rng, state)));
    entry
}

fn label_command(rng: &mut Rng, head: &str, mut entries: Vec<Command>) -> Command {
    let mut command = vec![keyword(rng, head)];
    if rng.percent(20) {
        rng.shuffle(&mut entries);
    }
    for (i, entry) in entries.into_iter().enumerate() {
        if i > 0 {
            command.push(piece(","));
        }
        command.extend(entry);
    }
    if rng.percent(10) {
        command.push(piece(","));
    }
    command
}
