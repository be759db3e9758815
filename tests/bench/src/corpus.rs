//! The files of inputs that corpus.py writes, with choosing_corpus.py, clients_corpus.py, plans_corpus.py, rows_corpus.py
//! and texts_corpus.py.

use crate::connector::Call;
use baseline::Mode;
use std::path::Path;

pub struct Input {
    pub name: String,
    k: u8,
    old: Vec<u8>,
    new: Vec<u8>,
    pub records: usize,
    pub room: usize,
}

impl Input {
    pub fn call(&self, mode: Mode) -> Call<'_> {
        Call { mode, k: self.k, old: &self.old, new: &self.new, records: self.records }
    }
}

/// A plan to be checked.
pub struct Check {
    pub old: Vec<u8>,
    pub new: Vec<u8>,
    pub plan: Vec<u8>,
    pub records: usize,
}

/// A choosing sheet to be converted.
pub struct Choosing {
    pub name: String,
    pub bytes: Vec<u8>,
    pub room: usize,
}

/// A text to be converted.
pub struct Text {
    pub name: String,
    pub bytes: Vec<u8>,
    pub room: usize,
}

/// A client to be checked against a service.
pub struct Client {
    pub name: String,
    pub client: Vec<u8>,
    pub service: Vec<u8>,
}

/// A state whose row is asked for, of the sheet with this number.
pub struct Row {
    pub name: String,
    pub sheet: u8,
    pub state: u8,
    pub first: Vec<u8>,
    pub second: Vec<u8>,
}

/// The rest of a file.
struct Rest<'a>(&'a [u8]);

impl Rest<'_> {
    fn bytes(&mut self, count: usize) -> Vec<u8> {
        let (front, rest) = self.0.split_at(count);
        self.0 = rest;
        front.to_vec()
    }

    fn number(&mut self, width: usize) -> usize {
        self.bytes(width).iter().rev().fold(0, |number, byte| number << 8 | usize::from(*byte))
    }

    fn measured(&mut self, width: usize) -> Vec<u8> {
        let length = self.number(width);
        self.bytes(length)
    }

    fn name(&mut self) -> String {
        String::from_utf8(self.measured(1)).expect("a name in UTF-8")
    }

    fn choosing(&mut self) -> Choosing {
        let (name, room) = (self.name(), self.number(2));
        Choosing { name, bytes: self.measured(2), room }
    }

    fn text(&mut self) -> Text {
        let (name, room) = (self.name(), self.number(2));
        Text { name, bytes: self.measured(2), room }
    }

    fn client(&mut self) -> Client {
        Client { name: self.name(), client: self.measured(2), service: self.measured(2) }
    }

    fn row(&mut self) -> Row {
        let (name, sheet, state) = (self.name(), self.number(1) as u8, self.number(1) as u8);
        Row { name, sheet, state, first: self.measured(2), second: self.measured(2) }
    }

    fn check(&mut self) -> Check {
        let (records, old, new) = (self.number(2), self.measured(2), self.measured(2));
        Check { old, new, plan: self.measured(4), records }
    }

    fn input(&mut self) -> Input {
        let name = self.name();
        let (records, room, k) = (self.number(2), self.number(4), self.number(1) as u8);
        Input { name, k, old: self.measured(2), new: self.measured(2), records, room }
    }
}

/// The records of a file, each read in the same way.
fn records<T>(path: &Path, record: fn(&mut Rest) -> T) -> Vec<T> {
    let data = std::fs::read(path).unwrap_or_else(|error| panic!("{}: {error}", path.display()));
    let mut rest = Rest(&data);
    let mut records = Vec::new();
    while !rest.0.is_empty() {
        records.push(record(&mut rest));
    }
    records
}

pub fn read(path: &Path) -> Vec<Input> {
    records(path, |rest| rest.input())
}

pub fn checks(path: &Path) -> Vec<Check> {
    records(path, |rest| rest.check())
}

pub fn choosing(path: &Path) -> Vec<Choosing> {
    records(path, |rest| rest.choosing())
}

pub fn texts(path: &Path) -> Vec<Text> {
    records(path, |rest| rest.text())
}

pub fn clients(path: &Path) -> Vec<Client> {
    records(path, |rest| rest.client())
}

pub fn rows(path: &Path) -> Vec<Row> {
    records(path, |rest| rest.row())
}
