//! The cases of bindings/cases.py, in the file that CROSSBAR5_CASES names, else in bindings/out/cases.

use crossbar5::{answer, Answer};
use std::fs;
use std::path::Path;

pub struct Case {
    pub name: String,
    pub task: u32,
    pub kinds: Vec<u8>,
    pub plan: Vec<u8>,
    pub input: Vec<u8>,
    pub wanted: Answer,
}

impl Case {
    pub fn answer(&self) -> Answer {
        answer(self.task, &self.plan, &self.kinds, &self.input).unwrap()
    }

    pub fn is_small(&self) -> bool {
        self.plan.len() + self.input.len() < 10_000 && self.wanted.text.len() < 100_000
    }
}

fn take<'a>(bytes: &mut &'a [u8], length: usize) -> &'a [u8] {
    let (part, rest) = bytes.split_at(length);
    *bytes = rest;
    part
}

pub fn cases() -> Vec<Case> {
    let path = match std::env::var_os("CROSSBAR5_CASES") {
        Some(path) => path.into(),
        None => Path::new(&std::env::var_os("CARGO_MANIFEST_DIR").unwrap()).join("../out/cases"),
    };
    let whole = fs::read(&path)
        .unwrap_or_else(|error| panic!("{}: {error}: run bindings/test", path.display()));
    let mut rest = whole.as_slice();
    let mut cases = Vec::new();
    while let Some(end) = rest.iter().position(|byte| *byte == b'\n') {
        let line = String::from_utf8(take(&mut rest, end + 1)[..end].to_vec()).unwrap();
        let words: Vec<&str> = line.splitn(7, ' ').collect();
        let number = |at: usize| words[at].parse::<usize>().unwrap();
        let mut part = |at: usize| take(&mut rest, number(at)).to_vec();
        let (kinds, plan, input, text) = (part(2), part(3), part(4), part(5));
        let wanted = Answer {
            status: number(1) as u32,
            text,
        };
        cases.push(Case {
            name: words[6].to_string(),
            task: number(0) as u32,
            kinds,
            plan,
            input,
            wanted,
        });
    }
    assert!(cases.len() > 500);
    cases
}
