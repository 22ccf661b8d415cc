//! Answers questions in frames. See `USAGE`.

use std::io::{self, BufReader, BufWriter, Write};
use std::process::ExitCode;

use oracle::answer::{self, ENOUGH};
use oracle::frames::{need_frame, read_frame, write_frame};
use oracle::tally::Tally;
use oracle::{generate, messages};

const USAGE: &str = "\
usage:
  oracle read [--lengths]      texts to records
  oracle write [--lengths]     records to written forms
  oracle lookup                names and records to stretches
  oracle lex                   texts to tokens
  oracle messages              texts to the rows of the table of messages that they reach
  oracle table                 the table of messages, in Markdown
  oracle generate [--answers] texts|records|lookups N [--seed S]
  oracle measure N [--seed S]  what N generated texts reach
A frame is a length of four bytes, little-endian, and that many bytes. With --lengths a frame of
16 bytes stands before each question: the length of the work memory and of the buffer, each of
eight bytes, little-endian; all ones stands for long enough. A refusal is the lines refused=, line=
and column=. A text that the reader cannot bear is not given to it; the answer is the line
beyond=memory or beyond=time.
";

type Input = BufReader<io::Stdin>;
type Output = BufWriter<io::Stdout>;

fn main() -> ExitCode {
    let arguments: Vec<String> = std::env::args_os()
        .skip(1)
        .map(|argument| argument.to_string_lossy().into_owned())
        .collect();
    let arguments: Vec<&str> = arguments.iter().map(String::as_str).collect();
    let mut input = BufReader::new(io::stdin());
    let mut output = BufWriter::new(io::stdout());
    let done = run(&arguments, &mut input, &mut output).and_then(|()| output.flush());
    match done {
        Ok(()) => ExitCode::SUCCESS,
        Err(error) => {
            eprintln!("oracle: {error}");
            ExitCode::from(2)
        }
    }
}

fn run(arguments: &[&str], input: &mut Input, output: &mut Output) -> io::Result<()> {
    match arguments {
        ["read"] => read(input, output, false),
        ["read", "--lengths"] => read(input, output, true),
        ["write"] => write(input, output, false),
        ["write", "--lengths"] => write(input, output, true),
        ["lookup"] => lookup(input, output),
        ["lex"] => lex(input, output),
        ["messages"] => reached(input, output),
        ["measure", rest @ ..] => measure(rest, output),
        ["table"] => output.write_all(messages::markdown().as_bytes()),
        ["generate", "--answers", rest @ ..] => generate(rest, true, output),
        ["generate", rest @ ..] => generate(rest, false, output),
        _ => Err(wrong(USAGE)),
    }
}

fn wrong(message: impl Into<String>) -> io::Error {
    io::Error::new(io::ErrorKind::InvalidInput, message.into())
}

/// The next question. What was answered so far goes out before the input is waited for.
fn question(input: &mut Input, output: &mut Output) -> io::Result<Option<Vec<u8>>> {
    if input.buffer().is_empty() {
        output.flush()?;
    }
    read_frame(input)
}

/// The lengths of work memory and buffer, and the question; none at the input's end.
fn question_with_lengths(
    input: &mut Input,
    output: &mut Output,
    lengths: bool,
) -> io::Result<Option<(u64, u64, Vec<u8>)>> {
    let Some(first) = question(input, output)? else {
        return Ok(None);
    };
    if !lengths {
        return Ok(Some((ENOUGH, ENOUGH, first)));
    }
    let lengths: [u8; 16] = first
        .try_into()
        .map_err(|_| wrong("a frame of lengths does not have 16 bytes"))?;
    let number = |at: usize| {
        let bytes = lengths[at..at + 8].try_into().expect("eight bytes");
        u64::from_le_bytes(bytes)
    };
    let question = need_frame(input, "a question after its lengths")?;
    Ok(Some((number(0), number(8), question)))
}

fn read(input: &mut Input, output: &mut Output, lengths: bool) -> io::Result<()> {
    while let Some((work, buffer, text)) = question_with_lengths(input, output, lengths)? {
        write_frame(output, &answer::read(&text, work, buffer).into_bytes())?;
    }
    Ok(())
}

fn write(input: &mut Input, output: &mut Output, lengths: bool) -> io::Result<()> {
    while let Some((_, buffer, record)) = question_with_lengths(input, output, lengths)? {
        write_frame(output, &answer::write(&record, buffer).into_bytes())?;
    }
    Ok(())
}

fn lookup(input: &mut Input, output: &mut Output) -> io::Result<()> {
    while let Some(name) = question(input, output)? {
        let record = need_frame(input, "a record after the name")?;
        write_frame(output, &answer::lookup(&name, &record))?;
    }
    Ok(())
}

fn lex(input: &mut Input, output: &mut Output) -> io::Result<()> {
    while let Some(text) = question(input, output)? {
        write_frame(output, &answer::tokens(&text).into_bytes())?;
    }
    Ok(())
}

fn reached(input: &mut Input, output: &mut Output) -> io::Result<()> {
    let mut tally = Tally::default();
    while let Some(text) = question(input, output)? {
        tally.add(&text);
    }
    output.write_all(tally.report().as_bytes())
}

fn measure(arguments: &[&str], output: &mut Output) -> io::Result<()> {
    let (count, seed) = count_and_seed(arguments)?;
    let mut tally = Tally::default();
    for number in 0..count {
        tally.add(&generate::text(seed, number));
    }
    output.write_all(tally.report().as_bytes())
}

/// A number of questions and a seed, 1 if none is given.
fn count_and_seed(arguments: &[&str]) -> io::Result<(u64, u64)> {
    let number = |text: &str| {
        let number = text.parse::<u64>();
        number.map_err(|_| wrong(format!("{text} is not a number")))
    };
    match arguments {
        [count] => Ok((number(count)?, 1)),
        [count, "--seed", seed] => Ok((number(count)?, number(seed)?)),
        _ => Err(wrong(USAGE)),
    }
}

fn generate(arguments: &[&str], answers: bool, output: &mut Output) -> io::Result<()> {
    let [kind, rest @ ..] = arguments else {
        return Err(wrong(USAGE));
    };
    let (count, seed) = count_and_seed(rest)?;
    for number in 0..count {
        let (question, answer) = match *kind {
            "texts" => text_question(seed, number, answers),
            "records" => record_question(seed, number, answers),
            "lookups" => lookup_question(seed, number, answers),
            _ => return Err(wrong(USAGE)),
        };
        for frame in question.iter().chain(&answer) {
            write_frame(output, frame)?;
        }
    }
    Ok(())
}

type Question = (Vec<Vec<u8>>, Option<Vec<u8>>);

fn text_question(seed: u64, number: u64, answers: bool) -> Question {
    let text = generate::text(seed, number);
    let answer = answers.then(|| answer::read(&text, ENOUGH, ENOUGH).into_bytes());
    (vec![text], answer)
}

fn record_question(seed: u64, number: u64, answers: bool) -> Question {
    let record = generate::record(seed, number);
    let answer = answers.then(|| answer::write(&record, ENOUGH).into_bytes());
    (vec![record], answer)
}

fn lookup_question(seed: u64, number: u64, answers: bool) -> Question {
    let (name, record) = generate::lookup(seed, number);
    let answer = answers.then(|| answer::lookup(&name, &record));
    (vec![name, record], answer)
}
