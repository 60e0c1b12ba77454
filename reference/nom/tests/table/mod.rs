//! A table of cases: each case is counted, each failed one printed, and the
//! table's last line says how many passed and failed.

use std::fmt::Debug;

pub struct Table {
    name: &'static str,
    passed: usize,
    failed: usize,
}

impl Table {
    pub fn new(name: &'static str) -> Table {
        Table {
            name,
            passed: 0,
            failed: 0,
        }
    }

    pub fn case<T: PartialEq + Debug>(&mut self, name: &str, found: T, expected: T) {
        if found == expected {
            self.passed += 1;
        } else {
            self.failed += 1;
            println!(
                "{}: {name}: found {found:?}, expected {expected:?}",
                self.name
            );
        }
    }

    pub fn end(self) {
        println!(
            "table {}: {} passed, {} failed",
            self.name, self.passed, self.failed
        );
        assert_eq!(self.failed, 0);
    }
}
