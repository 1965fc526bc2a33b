//! The workloads that `bench/workloads.py` makes, and the comparison of the answers to them.

use crate::implementation::Implementation;
use std::fs;
use std::path::Path;

/// Bytes of one answer: code, a and b.
const ANSWER_BYTES: usize = 12;

pub struct Workload {
    pub name: String,
    pub events: usize,
    pub what: String,
    vector: Vec<u8>,
    records: Vec<u8>,
}

impl Workload {
    /// All workloads of the folder's index, in its order.
    pub fn read_all(folder: &Path) -> Result<Vec<Workload>, String> {
        let index = folder.join("index.tsv");
        let text = fs::read_to_string(&index).map_err(|error| format!("{}: {error}", index.display()))?;
        text.lines().map(|line| Workload::read(folder, line)).collect()
    }

    /// One workload of the folder's index, without reading the others' files.
    pub fn read_named(folder: &Path, name: &str) -> Result<Workload, String> {
        let index = folder.join("index.tsv");
        let text = fs::read_to_string(&index).map_err(|error| format!("{}: {error}", index.display()))?;
        let line = text.lines().find(|line| line.split('\t').next() == Some(name));
        Workload::read(folder, line.ok_or(format!("no workload {name}"))?)
    }

    fn read(folder: &Path, line: &str) -> Result<Workload, String> {
        let [name, events, what] =
            line.split('\t').collect::<Vec<_>>().try_into().map_err(|_| format!("index: {line}"))?;
        let bytes = |ending: &str| {
            let path = folder.join(format!("{name}.{ending}"));
            fs::read(&path).map_err(|error| format!("{}: {error}", path.display()))
        };
        Ok(Workload {
            name: name.to_string(),
            events: events.parse().map_err(|error| format!("index: {line}: {error}"))?,
            what: what.to_string(),
            vector: bytes("vec")?,
            records: bytes("rec")?,
        })
    }

    /// Room for all answers.
    pub fn room(&self) -> Vec<u8> {
        vec![0; self.events * ANSWER_BYTES]
    }

    pub fn run(&self, implementation: Implementation, answers: &mut [u8]) -> usize {
        implementation.run(&self.vector, &self.records, answers)
    }

    /// Runs all implementations once. They must answer every event, and all in the same way.
    /// Answers how many events were refused.
    pub fn compare(&self) -> Result<usize, String> {
        let expected = self.answers(Implementation::Plain)?;
        for &other in Implementation::ALL.iter().filter(|one| **one != Implementation::Plain) {
            let got = self.answers(other)?;
            if let Some(event) = (0..self.events).find(|&event| answer(&expected, event) != answer(&got, event)) {
                return Err(format!(
                    "{}: event {event} (counted from 0): plain answers {:?}, {} answers {:?}",
                    self.name,
                    answer(&expected, event),
                    other.name(),
                    answer(&got, event),
                ));
            }
        }
        Ok((0..self.events).filter(|&event| answer(&expected, event).0 < 0).count())
    }

    fn answers(&self, implementation: Implementation) -> Result<Vec<u8>, String> {
        let mut answers = self.room();
        match self.run(implementation, &mut answers) {
            count if count == self.events => Ok(answers),
            usize::MAX => Err(format!("{}: {} refuses the whole run", self.name, implementation.name())),
            count => Err(format!("{}: {} answers {count} of {} events", self.name, implementation.name(), self.events)),
        }
    }
}

/// Code, a and b of one event.
fn answer(answers: &[u8], event: usize) -> (i32, u32, u32) {
    let word = |at: usize| {
        let start = event * ANSWER_BYTES + at;
        u32::from_le_bytes([answers[start], answers[start + 1], answers[start + 2], answers[start + 3]])
    };
    (word(0) as i32, word(4), word(8))
}
