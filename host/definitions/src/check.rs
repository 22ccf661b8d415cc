//! The check of the cases: each is a theorem in a crate that rt proves, or it has failed.

use std::collections::{BTreeMap, VecDeque};
use std::time::Instant;

use crate::module::{HEAD, Runners, hole, theorem};
use crate::question::{Case, Question};
use crate::said::{End, TOO_MANY_STEPS, end, goals, refused};
use crate::scratch::Scratch;
use crate::value::Value;

/// The declarations of a module.
const MODULE: usize = 50;

/// The cost of a crate's cases.
const CRATE: usize = 200_000;

/// The goals of one crate.
const GOALS: usize = 500;

/// A buffer that takes many records and forms of generated questions. antt shows a value of up to
/// 24 lines whole, and a record of this length with its buffer fills them.
const MUCH_ROOM: usize = 270;

/// What the definition gives, or why that is not shown.
pub type Given = Result<Value, String>;

#[derive(Debug)]
pub struct Failure {
    /// What antt or rt says.
    pub reason: String,
    pub given: Given,
    /// What the definition gives with much room, where against what is expected it lacks room.
    pub with_room: Option<Given>,
}

/// Checks the cases, and gives those that failed by their numbers.
pub fn check(
    scratch: &mut Scratch,
    cases: &[Case],
    jobs: usize,
) -> Result<BTreeMap<usize, Failure>, String> {
    let reasons = failed(scratch, cases, jobs)?;
    let asked = reasons.keys().map(|&n| (n, cases[n].question.clone()));
    let mut given = computed(scratch, asked.collect())?;
    let mut with_room = computed(scratch, lacking_room(cases, &given))?;
    let failure = |(number, reason)| {
        let not_shown = || Err("rt shows no goal of it".to_string());
        let failure = Failure {
            reason,
            given: given.remove(&number).unwrap_or_else(not_shown),
            with_room: with_room.remove(&number),
        };
        (number, failure)
    };
    Ok(reasons.into_iter().map(failure).collect())
}

/// The questions that are refused for room against what is expected, with much room.
fn lacking_room(cases: &[Case], given: &BTreeMap<usize, Given>) -> Vec<(usize, Question)> {
    let lacks = given.iter().filter(|(number, given)| {
        let expected = cases[**number].expected.lacks_room();
        !expected && given.as_ref().is_ok_and(Value::lacks_room)
    });
    let numbers = lacks.map(|(number, _)| *number);
    let with_room = |number: usize| (number, cases[number].question.with_room(MUCH_ROOM));
    numbers.map(with_room).collect()
}

/// The cases that stand in no proved crate. A case passes only in a crate that is proved as a
/// whole: of one that is not, the cases that an error names have failed, and the others are
/// checked again.
fn failed(
    scratch: &mut Scratch,
    cases: &[Case],
    jobs: usize,
) -> Result<BTreeMap<usize, String>, String> {
    let mut groups: VecDeque<Vec<usize>> = planned(cases, jobs).into();
    let mut failed = BTreeMap::new();
    let (start, mut passed) = (Instant::now(), 0);
    while !groups.is_empty() {
        let batch: Vec<Vec<usize>> = groups.drain(..jobs.min(groups.len())).collect();
        let crates: Vec<Vec<String>> = batch.iter().map(|group| theorems(cases, group)).collect();
        let added = scratch.add(&crates)?;
        let output = scratch.check(&added, jobs)?;
        for (group, name) in batch.into_iter().zip(&added.names) {
            let judged = judge(&output, name, group);
            passed += judged.passed;
            failed.extend(judged.failed);
            groups.extend(judged.again);
        }
        progress(passed, failed.len(), cases.len(), start);
    }
    Ok(failed)
}

fn progress(passed: usize, failed: usize, all: usize, start: Instant) {
    let seconds = start.elapsed().as_secs_f64();
    let done = passed + failed;
    let speed = done as f64 / seconds;
    println!("{done} of {all} cases, {failed} failed, {seconds:.0} s, {speed:.1} a second");
}

/// The cases in groups, one for each crate. Groups that are checked side by side cost about the
/// same.
fn planned(cases: &[Case], jobs: usize) -> Vec<Vec<usize>> {
    let mut groups = Vec::new();
    let mut batch = vec![(0, Vec::new()); jobs];
    for (number, case) in cases.iter().enumerate() {
        let least = batch.iter_mut().min_by_key(|(cost, _)| *cost);
        let (cost, group) = least.expect("a job or more");
        *cost += case.question.cost();
        group.push(number);
        if batch.iter().all(|(cost, _)| *cost >= CRATE) {
            groups.append(&mut batch);
            batch = vec![(0, Vec::new()); jobs];
        }
    }
    groups.append(&mut batch);
    let groups = groups.into_iter().map(|(_, group)| group);
    groups.filter(|group| !group.is_empty()).collect()
}

fn theorems(cases: &[Case], group: &[usize]) -> Vec<String> {
    let declare = |number: &usize| theorem(*number, &cases[*number]);
    modules(HEAD, group, declare)
}

/// Modules with a declaration for each item.
fn modules<T>(head: &str, items: &[T], declare: impl Fn(&T) -> String) -> Vec<String> {
    let module = |items: &[T]| {
        let declarations: Vec<String> = items.iter().map(&declare).collect();
        format!("{head}\n{}", declarations.join("\n"))
    };
    items.chunks(MODULE).map(module).collect()
}

/// What the check of one crate says of its cases.
#[derive(Debug, Default, Eq, PartialEq)]
struct Judged {
    passed: usize,
    failed: Vec<(usize, String)>,
    /// Groups that are to be checked again.
    again: Vec<Vec<usize>>,
}

fn judge(output: &str, name: &str, mut group: Vec<usize>) -> Judged {
    let mut judged = Judged::default();
    match end(output, name) {
        End::Proved => judged.passed = group.len(),
        End::Broken(reason) => {
            judged.failed = group.into_iter().map(|n| (n, reason.clone())).collect();
        }
        End::NotProved(reason) => {
            let mut named = refused(output);
            named.retain(|number, _| group.contains(number));
            group.retain(|number| !named.contains_key(number));
            if !named.is_empty() {
                judged.failed = named.into_iter().collect();
                judged.again.push(group);
            } else if let [one] = group[..] {
                judged.failed.push((one, reason));
            } else {
                let rest = group.split_off(group.len() / 2);
                judged.again.extend([group, rest]);
            }
        }
    }
    judged.again.retain(|group| !group.is_empty());
    judged
}

/// What the definitions give for these questions. What takes too many steps is asked again.
fn computed(
    scratch: &mut Scratch,
    mut asked: Vec<(usize, Question)>,
) -> Result<BTreeMap<usize, Given>, String> {
    let mut given = shown(scratch, &asked, Runners::AsDefined)?;
    asked.retain(|(number, _)| {
        let shown = given.get(number);
        shown.is_some_and(|shown| shown.as_ref().is_err_and(|why| why == TOO_MANY_STEPS))
    });
    given.extend(shown(scratch, &asked, Runners::Once)?);
    Ok(given)
}

/// What the goals of holes show.
fn shown(
    scratch: &mut Scratch,
    asked: &[(usize, Question)],
    runners: Runners,
) -> Result<BTreeMap<usize, Given>, String> {
    let mut shown = BTreeMap::new();
    for asked in asked.chunks(GOALS) {
        let declare = |(number, question): &(usize, Question)| hole(*number, question, runners);
        let added = scratch.add(&[modules(&runners.head(), asked, declare)])?;
        shown.extend(goals(&scratch.goals(&added)?));
    }
    Ok(shown)
}

#[cfg(test)]
mod tests {
    use super::*;

    fn case(length: usize) -> Case {
        let (name, record) = (Vec::new(), vec![0; length]);
        let question = Question::Lookup { name, record };
        question.asked(String::new()).expect("a case")
    }

    #[test]
    fn groups_cost_about_the_same() {
        let cases = [case(1000), case(0), case(0), case(0)];
        assert_eq!(planned(&cases, 2), [vec![0], vec![1, 2, 3]]);
        assert_eq!(planned(&cases[..1], 2), [vec![0]]);
        let cases = vec![case(99_900); 6];
        assert_eq!(planned(&cases, 1), [vec![0, 1], vec![2, 3], vec![4, 5]]);
    }

    #[test]
    fn a_module_has_few_cases() {
        let numbers: Vec<usize> = (0..120).collect();
        let modules = modules("head\n", &numbers, |n| format!("c{n}\n"));
        assert_eq!(modules.len(), 3);
        assert!(modules[2].starts_with("head\n\nc100\n\nc101\n"));
    }

    #[test]
    fn cases_that_no_error_names_are_checked_again() {
        let output = "== v\n./specs/V0.antt:1:6: error: `c2`: differs\n\
                      == summary\nv: failed (1)\n";
        let judged = judge(output, "v", vec![1, 2, 3]);
        assert_eq!(judged.passed, 0);
        assert_eq!(judged.failed, [(2, "differs".to_string())]);
        assert_eq!(judged.again, [[1, 3]]);
    }

    #[test]
    fn without_a_name_each_half_is_checked_again() {
        let output = "== v\nrattle: no verdict\n== summary\nv: failed (3)\n";
        let judged = judge(output, "v", vec![1, 2, 3]);
        assert_eq!(judged.again, [vec![1], vec![2, 3]]);
        let judged = judge(output, "v", vec![1]);
        assert_eq!(judged.again, Vec::<Vec<usize>>::new());
        assert!(judged.failed[0].1.contains("no verdict"));
    }

    #[test]
    fn a_proved_crate_passes() {
        let proved = "== v\nlogic=proved functions=0\n== summary\nv: ok\n";
        let judged = judge(proved, "v", vec![1, 2]);
        assert_eq!((judged.passed, judged.failed.len()), (2, 0));
        let judged = judge("rt: bad\n", "v", vec![1, 2]);
        assert_eq!((judged.passed, judged.failed.len()), (0, 2));
    }
}
