//! What the crate makes of calls and answers that are out of the ordinary, on the library that bindings/stubs/odd.c
//! makes, where CROSSBAR5_LIB_DIR says. bindings/test runs it.

use crossbar5::{answer, answer_into, Answer, Engine, Error, Task};

fn ask(plan: &str, input: &[u8]) -> Result<Answer, Error> {
    answer(9, plan.as_bytes(), b"kinds", input)
}

fn fine(text: &[u8]) -> Result<Answer, Error> {
    Ok(Answer {
        status: 0,
        text: text.to_vec(),
    })
}

fn unknown(status: u32, text: &[u8]) -> Error {
    Error::Unknown(Answer {
        status,
        text: text.to_vec(),
    })
}

#[test]
#[ignore = "needs the library of stubs/odd.c: bindings/test"]
fn parameters_are_in_order() {
    assert_eq!(ask("echo", b"input"), fine(b"9|echo|kinds|input"));
}

#[test]
#[ignore = "needs the library of stubs/odd.c: bindings/test"]
fn known_statuses_have_their_errors() {
    let said = || "said\n".to_string();
    for (status, wanted) in [
        (1, Error::NoSuchTask),
        (2, Error::MarkersRefused),
        (3, Error::PlanRefused(said())),
        (4, Error::TrafficRefused(said())),
        (5, Error::OutOfMemory),
        (7, Error::FoundWrong(said())),
    ] {
        let found = Engine::new(format!("status {status}"), "XX").task(Task::Look, "said\n");
        assert_eq!(found, Err(wanted));
    }
    for task in [Task::Audit, Task::DrawAsText, Task::Draw, Task::Page] {
        let found = Engine::new("status 4", "XX").task(task, "said\n");
        assert_eq!(found, Err(Error::RecordsRefused(said())));
    }
}

#[test]
#[ignore = "needs the library of stubs/odd.c: bindings/test"]
fn unknown_statuses_are_an_error_of_their_own() {
    for status in [6, 8, 9, 10, 77, 255, 256, 1 << 31, u32::MAX] {
        for task in [Task::Replay, Task::Audit, Task::Look, Task::Page] {
            let engine = Engine::new(format!("status {status}"), "XX");
            let error = engine.task(task, "FAULT,T1,1\n").unwrap_err();
            assert_eq!(error, unknown(status, b"FAULT,T1,1\n"));
            assert_eq!((error.status(), error.text()), (status, "FAULT,T1,1\n"));
            let words = format!("an unknown answer, with status {status}");
            assert_eq!(error.to_string(), words);
        }
    }
}

#[test]
#[ignore = "needs the library of stubs/odd.c: bindings/test"]
fn a_text_that_is_not_utf_8_is_an_unknown_answer() {
    assert_eq!(ask("bytes", b""), fine(b"\xff\xfe"));
    let error = Engine::new("bytes", "XX").replay("").unwrap_err();
    assert_eq!(error, unknown(0, b"\xff\xfe"));
    assert_eq!(error.text(), "");
}

#[test]
#[ignore = "needs the library of stubs/odd.c: bindings/test"]
fn texts_longer_than_the_first_room_are_whole() {
    for length in [0, 1, 65535, 65536, 65537, 150_000] {
        let text = vec![b'x'; length];
        assert_eq!(ask("status 0", &text), fine(&text));
    }
}

#[test]
#[ignore = "needs the library of stubs/odd.c: bindings/test"]
fn lengths_that_no_text_has_are_unknown_answers() {
    for plan in [
        "grows",
        "length 9223372036854775808",
        "length 18446744073709551615",
    ] {
        assert_eq!(ask(plan, b""), Err(unknown(0, b"")));
    }
    let most = ask("length 9223372036854775807", b"");
    assert_eq!(most, Err(Error::OutOfMemory));
}

#[test]
#[ignore = "needs the library of stubs/odd.c: bindings/test"]
fn rooms_are_those_of_the_slice() {
    for room in 0..8 {
        let mut out = [0xA5; 8];
        let told = answer_into(0, b"status 7", b"", b"text", &mut out[..room]);
        assert_eq!(told, (4, 7));
        let written: &[u8] = if room >= 4 { b"text" } else { b"" };
        assert!(out.starts_with(written));
        assert!(out[written.len()..].iter().all(|byte| *byte == 0xA5));
    }
    let mut out = [0; 100];
    let told = answer_into(0, b"room", b"", b"", &mut out[..77]);
    assert_eq!((told, &out[..2]), ((2, 0), b"77".as_slice()));
}
