//! Counts of passed and failed checks, per section and per operation.
//!
//! A section's name is "operation: what is tried".

const SHOWN_FAILURES: usize = 8;

#[derive(Default)]
struct Section {
    name: String,
    passed: usize,
    failed: usize,
    /// What the first failed checks found.
    failures: Vec<String>,
}

#[derive(Default)]
pub struct Report {
    sections: Vec<Section>,
    /// How many of the sections are printed.
    printed: usize,
}

impl Report {
    /// Later checks count under this name.
    pub fn section(&mut self, name: &str) {
        self.sections.push(Section { name: name.to_string(), ..Section::default() });
    }

    /// Counts a check; `details` is asked for only when it failed.
    pub fn check(&mut self, holds: bool, details: impl FnOnce() -> String) {
        let section = self.sections.last_mut().expect("a section was opened");
        if holds {
            section.passed += 1;
            return;
        }
        section.failed += 1;
        if section.failed <= SHOWN_FAILURES {
            section.failures.push(details());
        }
    }

    /// Takes over the sections of another report and prints them.
    pub fn add(&mut self, other: Report) {
        self.sections.extend(other.sections);
        self.print_new();
    }

    /// Prints the sections that are not printed yet and all totals; true if nothing failed.
    pub fn finish(mut self) -> bool {
        self.print_new();
        println!();
        for total in self.operation_totals() {
            total.print();
        }
        let passed: usize = self.sections.iter().map(|section| section.passed).sum();
        let failed: usize = self.sections.iter().map(|section| section.failed).sum();
        println!("{passed} passed, {failed} failed");
        failed == 0 && passed > 0
    }

    /// The sections of each operation added up, in the order they came.
    fn operation_totals(&self) -> Vec<Section> {
        let mut totals: Vec<Section> = Vec::new();
        for &Section { ref name, passed, failed, .. } in &self.sections {
            let operation = name.split(':').next().unwrap_or_default();
            match totals.iter_mut().find(|total| total.name == operation) {
                Some(total) => {
                    total.passed += passed;
                    total.failed += failed;
                }
                None => {
                    let name = operation.to_string();
                    totals.push(Section { name, passed, failed, ..Section::default() });
                }
            }
        }
        totals
    }

    #[cfg(test)]
    pub fn section_names(&self) -> Vec<&str> {
        self.sections.iter().map(|section| section.name.as_str()).collect()
    }

    fn print_new(&mut self) {
        self.sections[self.printed..].iter().for_each(Section::print);
        self.printed = self.sections.len();
    }
}

impl Section {
    fn print(&self) {
        for details in &self.failures {
            println!("FAILED {}: {details}", self.name);
        }
        println!("{:32} {:7} passed, {} failed", self.name, self.passed, self.failed);
    }
}
