//! What docs/ARCHITECTURE.md says of one text on its way through the crates is so.

use nexus::{TEXT_LIMIT, longest_record, lookup, read_into, work_needed, write_into};

fn walk() -> &'static str {
    let map = include_str!("../../../docs/ARCHITECTURE.md");
    let (_, walk) = map
        .split_once("## One text through the crates\n")
        .expect("the section");
    walk.split_once("\n## ").expect("a section behind it").0
}

/// The indented lines of the section, block by block: the text, work memory, the record and the form.
fn blocks() -> Vec<String> {
    let mut blocks = Vec::new();
    let mut within = false;
    for line in walk().lines() {
        let indented = line.strip_prefix("    ");
        if let Some(line) = indented {
            if !within {
                blocks.push(String::new());
            }
            let block: &mut String = blocks.last_mut().expect("a block");
            block.push_str(line);
            block.push('\n');
        }
        within = indented.is_some();
    }
    blocks
}

/// The numbers of a line `from N`, each with its index; behind `..` the last one in front of an index.
fn numbers(line: &str, next: usize) -> Vec<(usize, u32)> {
    let words: Vec<&str> = line.split_whitespace().skip(1).collect();
    let from: usize = words[0].parse().expect("an index");
    let mut found = Vec::new();
    let mut index = from;
    for word in &words[1..] {
        match (word.parse(), *word) {
            (Ok(number), _) => found.push((index, number)),
            (Err(_), "..") => {
                index = next - 1;
                continue;
            }
            (Err(_), _) => break,
        }
        index += 1;
    }
    found
}

#[test]
#[cfg_attr(not(archive), ignore = "no archive; tools/test-calls makes it")]
fn one_text_through_the_crates() {
    let blocks = blocks();
    let [text, memory, record, form] = &blocks[..] else {
        panic!("{} blocks", blocks.len());
    };
    let text = text.as_bytes();
    let (mut work, mut buffer) = (
        vec![!0; work_needed(text)],
        vec![0; longest_record(text.len())],
    );
    let length = read_into(text, &mut work, &mut buffer).expect("it is read");
    assert_eq!(std::str::from_utf8(&buffer[..length]), Ok(&record[..]));
    assert!(walk().contains(&format!("It answers {length},")));

    let lines: Vec<&str> = memory.lines().collect();
    let begin = |line: &str| -> usize {
        let word = line.split_whitespace().nth(1).expect("an index");
        word.parse().expect("an index")
    };
    let mut count = 0;
    for (at, line) in lines.iter().enumerate() {
        let next = lines.get(at + 1).map_or(0, |line| begin(line));
        for (index, number) in numbers(line, next) {
            assert_eq!(work[index], number, "{index}: {line}");
            count += 1;
        }
    }
    assert_eq!((lines.len(), count), (7, 19));

    let mut written = vec![0; TEXT_LIMIT];
    let length = write_into(record.as_bytes(), &mut written).expect("it is written");
    assert_eq!(std::str::from_utf8(&written[..length]), Ok(&form[..]));

    let cells = lookup(record.as_bytes(), b"ant").expect("a taxon");
    let from = cells.as_ptr() as usize - record.as_ptr() as usize;
    let cells = std::str::from_utf8(cells).expect("ASCII");
    let said = format!(
        "the bytes from {from} up to {} of the caller's record, `{cells}`",
        from + cells.len()
    );
    assert!(walk().contains(&said), "{said}");

    let wrong = String::from_utf8_lossy(text).replace('?', "x");
    let refusal = read_into(wrong.as_bytes(), &mut work, &mut buffer).expect_err("a fault");
    let said = format!("line {}, column {}", refusal.line, refusal.column);
    assert!(
        refusal.number == 22 && walk().contains(&said),
        "{refusal:?}"
    );
}
