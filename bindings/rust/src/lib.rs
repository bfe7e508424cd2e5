//! The engine of crossbar5, a proved simulator of a telephone exchange, for Rust.
//!
//! ```
//! let engine = crossbar5::Engine::default();
//! let records = engine.replay("J,0,1,D,3041\nS,0,128,,\n")?;
//! assert_eq!(records, "0,1,0,D,3041,-,DIALTONE,1,3041-0-417,-\nPATHS,1\nCLOSED,4\n");
//! # Ok::<(), crossbar5::Error>(())
//! ```
//!
//! `docs/FORMATS.md` defines plans, rows, records and all texts. The crate links `libcrossbar5.a`, which `bindings/build`
//! makes, and has no other dependency. Its one `unsafe` block is the call of the library.

#![deny(unsafe_op_in_unsafe_fn, missing_docs)]

use std::{fmt, str};

/// The plan that the program has if none is named.
pub const EXAMPLE_PLAN: &str = r#"version = 1
groups = ["REG register 417 418 509", "INTRA intra 600-601 700-711", "OUTA outgoing 800", "OUTB outgoing 801 902"]
numbers = ["0001 3041", "0002 3052", "0003 1000", "0004 3100"]
codes = ["234 INTRA", "555 OUTA OUTB"]
faults = []
"#;

/// The tasks of the engine, with their numbers. The input of an audit, a drawing and a page is records, as a replay
/// gives them; that of all others is rows of traffic.
#[derive(Clone, Copy, Debug, PartialEq, Eq, Hash)]
#[repr(u32)]
pub enum Task {
    /// Replays rows: the records.
    Replay = 0,
    /// Replays rows, and describes each step in words.
    Walk = 1,
    /// The same, with one line for the tests of a row of switches.
    WalkInShort = 2,
    /// The same as JSON objects, one in a line.
    WalkAsJson = 3,
    /// Judges records by the one-marker office.
    Audit = 4,
    /// Draws the office after records, for a terminal of 80 columns.
    DrawAsText = 5,
    /// Draws the office after records, in SVG.
    Draw = 6,
    /// Shows records turn by turn, as an HTML page.
    Page = 7,
    /// The office as it stands after rows, in words.
    Look = 8,
    /// The office as it stands after rows, as one JSON object.
    LookAsJson = 9,
    /// The office as it stands after rows, in SVG.
    LookInSvg = 10,
}

impl Task {
    fn is_on_records(self) -> bool {
        matches!(
            self,
            Task::Audit | Task::DrawAsText | Task::Draw | Task::Page
        )
    }
}

/// A text and its status, as the library answers.
#[derive(Clone, Debug, PartialEq, Eq)]
pub struct Answer {
    /// 0 if the task was done; the other statuses are those of [`Error`].
    pub status: u32,
    /// The text. With a status other than 0 it says why, or is empty.
    pub text: Vec<u8>,
}

/// Why the engine didn't do a task.
#[derive(Clone, Debug, PartialEq, Eq)]
#[non_exhaustive]
pub enum Error {
    /// No task has the number (status 1).
    NoSuchTask,
    /// The kinds of the markers aren't 1 to 48 of the letters `D`, `C` and `X` (status 2).
    MarkersRefused,
    /// The plan has a fault (status 3), with its line, such as `FAULT,P2`.
    PlanRefused(String),
    /// A row has a fault (status 4), with its line, such as `FAULT,T1,1`.
    TrafficRefused(String),
    /// The input is no text of records (status 4), with the line of its fault, such as `FAULT,U1,1`.
    RecordsRefused(String),
    /// Memory ran out (status 5).
    OutOfMemory,
    /// The records aren't legal, or their counts are wrong (status 7), with what the audit writes.
    FoundWrong(String),
    /// The library answered as this crate doesn't know: with another status, with a text that isn't UTF-8, or with a
    /// length that its text can't have.
    Unknown(Answer),
}

impl Error {
    /// The status that the library answered with.
    pub fn status(&self) -> u32 {
        match self {
            Error::NoSuchTask => 1,
            Error::MarkersRefused => 2,
            Error::PlanRefused(_) => 3,
            Error::TrafficRefused(_) | Error::RecordsRefused(_) => 4,
            Error::OutOfMemory => 5,
            Error::FoundWrong(_) => 7,
            Error::Unknown(answer) => answer.status,
        }
    }

    /// The text that came with the status, if it is UTF-8. It may be empty.
    pub fn text(&self) -> &str {
        match self {
            Error::PlanRefused(text) | Error::TrafficRefused(text) => text,
            Error::RecordsRefused(text) | Error::FoundWrong(text) => text,
            Error::NoSuchTask | Error::MarkersRefused | Error::OutOfMemory => "",
            Error::Unknown(answer) => str::from_utf8(&answer.text).unwrap_or(""),
        }
    }
}

impl fmt::Display for Error {
    fn fmt(&self, f: &mut fmt::Formatter<'_>) -> fmt::Result {
        if let Error::Unknown(answer) = self {
            return write!(f, "an unknown answer, with status {}", answer.status);
        }
        match self.text().lines().next() {
            Some(line) => f.write_str(line),
            None => write!(f, "status {}", self.status()),
        }
    }
}

impl std::error::Error for Error {}

/// What the library says of its text.
#[repr(C)]
struct Answered {
    length: usize,
    status: u32,
}

extern "C" {
    fn crossbar5_answer(
        task: u32,
        plan: *const u8,
        plan_length: usize,
        kinds: *const u8,
        kinds_length: usize,
        input: *const u8,
        input_length: usize,
        out: *mut u8,
        room: usize,
        answered: *mut Answered,
    );
}

/// One call of the library: the length of the text, and the status. The text is in `out` if it has room for it.
/// Otherwise `out` is left as it is.
pub fn answer_into(
    task: u32,
    plan: &[u8],
    kinds: &[u8],
    input: &[u8],
    out: &mut [u8],
) -> (usize, u32) {
    let mut answered = Answered {
        length: 0,
        status: 0,
    };
    // SAFETY: each pointer comes from a reference, so none is null, each is to as many bytes as the length says, and
    // what is written to is borrowed mutably. The library keeps none of them.
    unsafe {
        crossbar5_answer(
            task,
            plan.as_ptr(),
            plan.len(),
            kinds.as_ptr(),
            kinds.len(),
            input.as_ptr(),
            input.len(),
            out.as_mut_ptr(),
            out.len(),
            &mut answered,
        );
    }
    (answered.length, answered.status)
}

/// The answer to the task of this number, whatever its status.
///
/// # Errors
///
/// [`Error::OutOfMemory`] if there is no memory for the text here, and [`Error::Unknown`] if the library tells a length
/// that its text can't have, as the real one never does.
pub fn answer(task: u32, plan: &[u8], kinds: &[u8], input: &[u8]) -> Result<Answer, Error> {
    let mut text = zeros(65536)?;
    let (mut length, mut status) = answer_into(task, plan, kinds, input, &mut text);
    if text.len() < length && length <= isize::MAX as usize {
        text = zeros(length)?;
        (length, status) = answer_into(task, plan, kinds, input, &mut text);
    }
    if text.len() < length {
        let text = Vec::new();
        return Err(Error::Unknown(Answer { status, text }));
    }
    text.truncate(length);
    Ok(Answer { status, text })
}

/// This many bytes of 0, if there is memory for them.
fn zeros(size: usize) -> Result<Vec<u8>, Error> {
    let mut bytes = Vec::new();
    bytes
        .try_reserve_exact(size)
        .map_err(|_| Error::OutOfMemory)?;
    bytes.resize(size, 0);
    Ok(bytes)
}

/// An office with a plan and markers, in which tasks are done. It keeps nothing from one task to the next, so threads
/// can share it.
#[derive(Clone, Debug)]
pub struct Engine {
    plan: Vec<u8>,
    markers: Vec<u8>,
}

impl Default for Engine {
    /// The example plan, and two markers for all jobs.
    fn default() -> Self {
        Engine::new(EXAMPLE_PLAN, "XX")
    }
}

impl Engine {
    /// An office with the plan of this text, and a letter for each marker: `D` for dial tone jobs, `C` for completing
    /// jobs and releases, `X` for all jobs. Both are judged by each task.
    pub fn new(plan: impl AsRef<[u8]>, markers: impl AsRef<[u8]>) -> Self {
        Engine {
            plan: plan.as_ref().to_vec(),
            markers: markers.as_ref().to_vec(),
        }
    }

    /// The text of a task with this input.
    ///
    /// # Errors
    ///
    /// Any status but 0, as an [`Error`]. The same holds of the methods below.
    pub fn task(&self, task: Task, input: impl AsRef<[u8]>) -> Result<String, Error> {
        let answer = answer(task as u32, &self.plan, &self.markers, input.as_ref())?;
        let text = match String::from_utf8(answer.text) {
            Ok(text) => text,
            Err(error) => {
                return Err(Error::Unknown(Answer {
                    status: answer.status,
                    text: error.into_bytes(),
                }))
            }
        };
        match answer.status {
            0 => Ok(text),
            1 => Err(Error::NoSuchTask),
            2 => Err(Error::MarkersRefused),
            3 => Err(Error::PlanRefused(text)),
            4 if task.is_on_records() => Err(Error::RecordsRefused(text)),
            4 => Err(Error::TrafficRefused(text)),
            5 => Err(Error::OutOfMemory),
            7 => Err(Error::FoundWrong(text)),
            status => Err(Error::Unknown(Answer {
                status,
                text: text.into_bytes(),
            })),
        }
    }

    /// The records of a replay of rows, with the counts.
    pub fn replay(&self, rows: impl AsRef<[u8]>) -> Result<String, Error> {
        self.task(Task::Replay, rows)
    }

    /// A replay of rows, each step in words.
    pub fn walk(&self, rows: impl AsRef<[u8]>) -> Result<String, Error> {
        self.task(Task::Walk, rows)
    }

    /// The same, with one line for the tests of a row of switches.
    pub fn walk_in_short(&self, rows: impl AsRef<[u8]>) -> Result<String, Error> {
        self.task(Task::WalkInShort, rows)
    }

    /// The same as JSON objects, one in a line.
    pub fn walk_as_json(&self, rows: impl AsRef<[u8]>) -> Result<String, Error> {
        self.task(Task::WalkAsJson, rows)
    }

    /// What an audit says of legal records: `AUDIT,LEGAL` and the right counts. Others are [`Error::FoundWrong`].
    pub fn audit(&self, records: impl AsRef<[u8]>) -> Result<String, Error> {
        self.task(Task::Audit, records)
    }

    /// The office after records, as text for a terminal of 80 columns.
    pub fn draw_as_text(&self, records: impl AsRef<[u8]>) -> Result<String, Error> {
        self.task(Task::DrawAsText, records)
    }

    /// The office after records, in SVG.
    pub fn draw(&self, records: impl AsRef<[u8]>) -> Result<String, Error> {
        self.task(Task::Draw, records)
    }

    /// Records turn by turn, as an HTML page.
    pub fn page(&self, records: impl AsRef<[u8]>) -> Result<String, Error> {
        self.task(Task::Page, records)
    }

    /// The office as it stands after rows, with jobs half done, in words.
    pub fn look(&self, rows: impl AsRef<[u8]>) -> Result<String, Error> {
        self.task(Task::Look, rows)
    }

    /// The same as one JSON object.
    pub fn look_as_json(&self, rows: impl AsRef<[u8]>) -> Result<String, Error> {
        self.task(Task::LookAsJson, rows)
    }

    /// The same in SVG.
    pub fn look_in_svg(&self, rows: impl AsRef<[u8]>) -> Result<String, Error> {
        self.task(Task::LookInSvg, rows)
    }
}

#[cfg(test)]
mod tests {
    use super::Answered;
    use std::mem::{offset_of, size_of};

    #[test]
    fn the_answer_lies_as_the_library_has_it() {
        assert_eq!(offset_of!(Answered, length), 0);
        assert_eq!(offset_of!(Answered, status), size_of::<usize>());
        assert_eq!(size_of::<Answered>(), 2 * size_of::<usize>());
    }
}
