//! A list in the making: its stream, its expected lines, and the model that answers beside the oracle.

use model::replay::{fits, write, Inputs, Record};
use model::search::Lent;

/// A stream with its expected lines and its cases.
#[derive(Default)]
pub struct Sheet {
    pub stream: Vec<u8>,
    pub expected: String,
    cases: Vec<(String, usize, usize)>,
    inputs: Inputs,
    records: usize,
    lines: usize,
}

impl Sheet {
    /// Begins a case; the index notes where.
    pub fn case(&mut self, name: &str) {
        self.cases.push((name.to_string(), self.records, self.lines + 1));
    }

    /// How many cases there are.
    pub fn count(&self) -> usize {
        self.cases.len()
    }

    /// The first record, counted from 0, and the first line, counted from 1, of each case.
    pub fn index(&self) -> String {
        let line = |(name, record, line): &(String, usize, usize)| format!("record {record} line {line}: {name}\n");
        self.cases.iter().map(line).collect()
    }

    /// Adds a record, and the lines that the model answers.
    pub fn put(&mut self, record: Record) -> String {
        assert!(fits(&record), "a record beyond the program's room");
        let mut lines = String::new();
        self.inputs.take(&record, &mut lines);
        write(&mut self.stream, &record);
        self.records += 1;
        self.lines += lines.matches('\n').count();
        self.expected += &lines;
        lines
    }

    /// Adds the records of all that is lent: table, frame, settings.
    pub fn lend(&mut self, lent: &Lent) {
        self.put(Record::Table(lent.table.clone()));
        self.put(Record::Frame(lent.frame.clone()));
        self.put(Record::Settings(lent.settings));
    }

    /// Adds a record whose lines the oracle gave; the model must say the same.
    pub fn check(&mut self, record: Record, lines: &str) {
        let ours = self.put(record.clone());
        assert!(ours == lines, "oracle and model differ on {record:?}: oracle {lines}, model {ours}");
    }

    /// Adds a whole list behind this one.
    pub fn join(&mut self, name: &str, other: &Sheet) {
        for (case, record, line) in &other.cases {
            self.cases.push((format!("{name}: {case}"), self.records + record, self.lines + line));
        }
        self.stream.extend(&other.stream);
        self.expected += &other.expected;
        self.records += other.records;
        self.lines += other.lines;
    }
}
