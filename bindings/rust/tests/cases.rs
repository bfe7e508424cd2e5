//! The answers are those of the rows and of the program, byte for byte.

mod common;

use common::{cases, Case};
use crossbar5::{answer, answer_into, Engine, Error, EXAMPLE_PLAN};
use std::thread;

const THREADS: usize = 8;
const FIRST: &str = "J,0,1,D,3041\nS,0,128,,\n";
const HALF: &str = "J,0,1,D,3041\nS,0,5,,\n";
const RECORDS: &str = "0,1,0,D,3041,-,DIALTONE,1,3041-0-417,-\nPATHS,1\nCLOSED,4\n";

/// What the text of each task has, with these rows or records.
const EACH_TASK: [(&str, &str); 11] = [
    (FIRST, RECORDS),
    (FIRST, "marker 0"),
    (FIRST, "marker 0"),
    (FIRST, "{"),
    (RECORDS, "AUDIT,LEGAL,1\n"),
    (RECORDS, "PATHS AT A GLANCE"),
    (RECORDS, "<svg"),
    (RECORDS, "id=\"turn0\""),
    (HALF, "marker 0"),
    (HALF, "{"),
    (HALF, "<svg"),
];

#[test]
fn each_case_has_its_answer() {
    for case in cases() {
        assert!(case.answer() == case.wanted, "{}", case.name);
    }
}

#[test]
fn each_task_is_done() {
    for (task, (input, part)) in EACH_TASK.into_iter().enumerate() {
        let found = answer(
            task as u32,
            EXAMPLE_PLAN.as_bytes(),
            b"XX",
            input.as_bytes(),
        );
        let found = found.unwrap();
        let text = String::from_utf8(found.text).unwrap();
        assert!(found.status == 0 && text.contains(part), "task {task}");
    }
}

#[test]
fn a_text_is_written_whole_or_not_at_all() {
    for case in cases().iter().filter(|case| case.is_small()) {
        let length = case.wanted.text.len();
        for room in [0, length.saturating_sub(1), length, length + 9] {
            let mut out = vec![0xA5; room];
            let told = answer_into(case.task, &case.plan, &case.kinds, &case.input, &mut out);
            assert_eq!(told, (length, case.wanted.status), "{}", case.name);
            let written = if length <= room { length } else { 0 };
            assert!(
                out[..written] == case.wanted.text[..written],
                "{}",
                case.name
            );
            assert!(
                out[written..].iter().all(|byte| *byte == 0xA5),
                "{}",
                case.name
            );
        }
    }
}

#[test]
fn threads_have_the_same_answers() {
    let cases: Vec<Case> = cases().into_iter().filter(Case::is_small).collect();
    thread::scope(|scope| {
        for _ in 0..THREADS {
            scope.spawn(|| {
                for case in &cases {
                    assert!(case.answer() == case.wanted, "{}", case.name);
                }
            });
        }
    });
}

#[test]
fn engines_have_errors_by_status() {
    for case in cases()
        .iter()
        .filter(|case| case.is_small() && case.task == 0)
    {
        let found = Engine::new(&case.plan, &case.kinds).replay(&case.input);
        let text = String::from_utf8(case.wanted.text.clone()).unwrap();
        let wanted = match case.wanted.status {
            0 => Ok(text),
            2 => Err(Error::MarkersRefused),
            3 => Err(Error::PlanRefused(text)),
            _ => Err(Error::TrafficRefused(text)),
        };
        assert_eq!(found, wanted, "{}", case.name);
    }
}
