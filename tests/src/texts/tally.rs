//! How often each fault of a text was met, and what else must be.

use std::collections::HashSet;

use crate::frames::Frame;
use crate::model::notation::answers::REFUSED;
use crate::model::notation::faults::{FAULTS, NO_SUCH_OPERATOR};

/// What must be met so often, each of it.
const LEAST: usize = 100;
/// The last refusal that a file can get on reading.
const LAST_REFUSAL: usize = 10;
/// Where an answer says whether there is a near name.
const NEAR_AT: usize = 4;

#[derive(Default)]
pub struct Tally {
    /// By fault; 0 are the texts that are read.
    faults: [usize; FAULTS + 1],
    places: [HashSet<u32>; FAULTS + 1],
    /// Faults 23 without and with an operator of a near name.
    near: [usize; 2],
    /// Canonical texts, by the refusal of their file; 0 are those that are made.
    files: [usize; LAST_REFUSAL + 1],
    messages: usize,
    longest: usize,
}

impl Tally {
    pub fn add(&mut self, frame: &Frame, answer: &[u32]) {
        self.longest = self.longest.max(frame.content().len());
        match frame {
            Frame::Text(_) => {
                let number = answer[0] as usize;
                self.faults[number] += 1;
                if let (1.., Some(place)) = (number, answer.get(1)) {
                    self.places[number].insert(*place);
                }
                if number == NO_SUCH_OPERATOR as usize {
                    self.near[answer[NEAR_AT] as usize] += 1;
                }
            }
            Frame::File(_) => self.files[answer[0].saturating_sub(REFUSED) as usize] += 1,
            Frame::Message(_) => self.messages += 1,
            Frame::Time(_) => {}
        }
    }

    pub fn merge(&mut self, other: Tally) {
        for (met, more) in self.faults.iter_mut().zip(other.faults) {
            *met += more;
        }
        for (places, more) in self.places.iter_mut().zip(other.places) {
            places.extend(more);
        }
        for (met, more) in self.near.iter_mut().zip(other.near) {
            *met += more;
        }
        for (met, more) in self.files.iter_mut().zip(other.files) {
            *met += more;
        }
        self.messages += other.messages;
        self.longest = self.longest.max(other.longest);
    }

    pub fn report(&self) -> String {
        let mut report = format!(
            "{} texts, {} files, {} messages, the longest of {} bytes\n",
            self.faults.iter().sum::<usize>(),
            self.files.iter().sum::<usize>(),
            self.messages,
            self.longest,
        );
        for (number, met) in self.faults.iter().enumerate() {
            report += &match number {
                0 => format!("text read    {met:7}\n"),
                _ => format!(
                    "fault {number:2}     {met:7}   places {}\n",
                    self.places[number].len()
                ),
            };
        }
        let [far, near] = self.near;
        report += &format!("fault 23 with a near name {near}, without {far}\n");
        report += &format!("canonical texts {}, refusals", self.files[0]);
        for (number, met) in self.files.iter().enumerate().skip(1) {
            report += &format!(" {number}: {met}");
        }
        report + "\n"
    }

    /// What was not met often enough.
    pub fn too_seldom(&self) -> Vec<String> {
        let mut met: Vec<(String, usize)> = Vec::new();
        for (number, times) in self.faults.iter().enumerate() {
            met.push((format!("fault {number} of a text"), *times));
        }
        met.push(("fault 23 without a near name".into(), self.near[0]));
        met.push(("fault 23 with a near name".into(), self.near[1]));
        for (number, times) in self.files.iter().enumerate() {
            met.push((format!("refusal {number} of a file"), *times));
        }
        let seldom = met.into_iter().filter(|(_, times)| *times < LEAST);
        seldom
            .map(|(what, times)| format!("{what} {times}"))
            .collect()
    }
}
