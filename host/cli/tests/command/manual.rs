//! The man page and the help: every verb and option is there.

use std::collections::BTreeSet;
use std::fs;
use std::path::Path;
use std::process::{Command, Stdio};

use cli::help;
use cli::verbs;

fn page() -> String {
    let path = Path::new(env!("CARGO_MANIFEST_DIR")).join("nexus.1");
    fs::read_to_string(path).expect("the man page")
}

/// The part of the page that is about a verb.
#[track_caller]
fn section(page: &str, verb: &str) -> String {
    let start = page.find(&format!("\n.SS {verb}\n"));
    let rest = &page[start.unwrap_or_else(|| panic!("no section {verb}")) + 1..];
    let ends = ["\n.SS ", "\n.SH "].map(|mark| rest.find(mark).unwrap_or(rest.len()));
    rest[..ends[0].min(ends[1])].to_string()
}

/// All words that begin with two dashes.
fn options(text: &str) -> BTreeSet<String> {
    let plain = text.replace("\\-", "-");
    let words = plain.split(|c: char| !(c.is_ascii_alphanumeric() || c == '-'));
    let options = words.filter(|word| word.len() > 2 && word.starts_with("--"));
    options.map(str::to_string).collect()
}

#[test]
fn the_page_has_every_verb_and_option() {
    let page = page();
    let synopsis = &page[..page.find(".SH DESCRIPTION").expect("a description")];
    for verb in verbs::all() {
        assert!(synopsis.contains(&format!("\n.B nexus {}\n", verb.name)));
        let section = section(&page, verb.name);
        let named: BTreeSet<String> = verb.flags.iter().map(|f| f.name.to_string()).collect();
        assert_eq!(options(&section), named, "{}", verb.name);
        let paragraphs = verb.flags.iter().filter(|flag| {
            let name = flag.name.replace('-', "\\-");
            let alone = format!("\n.TP\n.B {name}\n");
            let valued = format!("\n.TP\n.BI {name} ");
            section.contains(&alone) || section.contains(&valued)
        });
        assert_eq!(paragraphs.count(), verb.flags.len(), "{}", verb.name);
    }
    for name in ["--help", "--version"] {
        assert!(options(&page).contains(name));
    }
    assert!(page.contains(&format!("\"{}\"", help::version().trim_end())));
    assert_eq!(page.matches("\n.SS ").count(), verbs::all().count());
}

#[test]
fn the_help_has_every_verb_option_and_an_example() {
    let whole = help::whole(80);
    for verb in verbs::all() {
        assert!(whole.contains(&format!("\n  {} {}", verb.name, verb.operands)));
        let help = help::of(verb, 80);
        assert!(
            verb.flags
                .iter()
                .all(|flag| help.contains(&format!("\n  {}", flag.name)))
        );
        assert!(help.contains("\nExit status:\n  0  "));
        assert!(
            help.contains(&format!("\nExample:\n  $ nexus {}", verb.name)),
            "{help}"
        );
        let longest = help.lines().map(|line| line.chars().count()).max();
        assert!(longest <= Some(80), "{}: {longest:?}", verb.name);
    }
}

/// Where groff is there, it finds nothing to say of the page.
#[test]
fn the_page_is_set_without_warnings() {
    let path = Path::new(env!("CARGO_MANIFEST_DIR")).join("nexus.1");
    let mut groff = Command::new("groff");
    groff
        .args(["-man", "-Tutf8", "-ww"])
        .arg(path)
        .stdin(Stdio::null());
    let Ok(output) = groff.output() else {
        return println!("no groff");
    };
    assert!(output.status.success());
    assert_eq!(String::from_utf8_lossy(&output.stderr), "");
    assert!(output.stdout.len() > 3_000);
}
