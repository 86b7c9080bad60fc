//! What was compared so far. The first difference ends the run.

use std::collections::BTreeMap;
use std::fmt::Debug;
use std::process::exit;

#[derive(Default)]
pub struct Tally {
    calls: BTreeMap<&'static str, usize>,
    /// How often each answer came, by its number.
    answers: BTreeMap<u8, usize>,
}

/// One call, and what it was asked.
pub struct Call<'a> {
    pub name: &'static str,
    pub asked: &'a dyn Debug,
}

impl Call<'_> {
    pub fn agree(&self, what: &str, agrees: bool) {
        if !agrees {
            println!("compare-library: {} differs in {what}: {:x?}", self.name, self.asked);
            exit(1)
        }
    }

    pub fn same<T: PartialEq + Debug>(&self, what: &str, found: T, expected: T) {
        if found != expected {
            let what = format!("{what}, which is {found:x?} where {expected:x?} is expected");
            self.agree(&what, false);
        }
    }
}

impl Tally {
    pub fn count(&mut self, name: &'static str, answer: u8) {
        *self.calls.entry(name).or_default() += 1;
        *self.answers.entry(answer).or_default() += 1;
    }

    pub fn print(&self) {
        let calls: Vec<String> = self.calls.iter().map(|(name, n)| format!("{n} of {name}")).collect();
        let refusals = self.answers.iter().filter(|(&answer, _)| answer != 0);
        let refusals: Vec<String> = refusals.map(|(answer, n)| format!("{n} times {answer:02}")).collect();
        println!("compare-library: all calls agree: {}", calls.join(", "));
        println!("compare-library: refused {}", refusals.join(", "));
    }
}
