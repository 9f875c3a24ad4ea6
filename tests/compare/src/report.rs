//! One line for each check, and how many passed.

#[derive(Default)]
pub struct Report {
    /// Whether tables are printed too.
    pub tables: bool,
    passed: usize,
    failed: usize,
}

impl Report {
    /// Prints a table of what a check reached.
    pub fn table(&self, table: &impl std::fmt::Display) {
        if self.tables {
            print!("{table}");
        }
    }

    /// Prints the line of a check.
    pub fn line(&mut self, name: &str, result: Result<String, String>) {
        match result {
            Ok(says) => {
                self.passed += 1;
                println!("{}", format!("ok {name} {says}").trim_end());
            }
            Err(says) => {
                self.failed += 1;
                println!("FAILED {name} {says}");
            }
        }
    }

    pub fn all_passed(&self) -> bool {
        self.failed == 0
    }

    /// Prints how many passed and failed.
    pub fn finish(&self) {
        println!("{} passed, {} failed", self.passed, self.failed);
    }
}
