//! What README shows of this crate is its example, which is compiled.

#[test]
fn the_example_stands_in_readme() {
    let readme = include_str!("../../../README.md");
    let example = include_str!("../examples/taxa.rs");
    let (_, code) = example.split_once("\n\n").expect("a comment, and code");
    let shown: Vec<String> = code
        .lines()
        .map(|line| match line {
            "" => String::new(),
            line => format!("    {line}"),
        })
        .collect();
    assert!(shown.len() > 5 && readme.contains(&shown.join("\n")));
}
