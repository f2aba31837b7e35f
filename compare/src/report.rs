//! What the comparisons have in common: their options, the tests by category, the failures that are shown and the last lines.

use std::collections::BTreeMap;
use std::process::exit;

/// Failures that are printed, and characters of what was expected and given in each.
const SHOWN: usize = 5;
const SHOWN_LENGTH: usize = 3_000;

/// The program under test.
pub struct Program {
    pub path: String,
    pub words: Vec<String>,
}

/// Numbers by name, `--name N`, and the program, [PROGRAM [WORDS...]].
pub struct Options {
    numbers: Vec<(&'static str, u64)>,
    pub program: Program,
}

impl Options {
    /// As the call says, and where it says nothing as it is said here.
    pub fn new(numbers: &[(&'static str, u64)], program: &str) -> Options {
        let program = Program { path: program.to_string(), words: Vec::new() };
        let mut options = Options { numbers: numbers.to_vec(), program };
        if let Err(error) = options.read(&mut std::env::args().skip(1)) {
            println!("{error}\n0 passed, 1 failed");
            exit(1);
        }
        options
    }

    fn read(&mut self, words: &mut dyn Iterator<Item = String>) -> Result<(), String> {
        while let Some(word) = words.next() {
            if !word.starts_with("--") {
                self.program = Program { path: word, words: words.collect() };
                break;
            }
            let number = words.next().and_then(|number| number.parse().ok()).ok_or(format!("{word} needs a number"))?;
            let named = self.numbers.iter_mut().find(|(name, _)| *name == word).ok_or(format!("unknown option {word}"))?;
            named.1 = number;
        }
        let path = &self.program.path;
        if std::path::Path::new(path).is_file() {
            Ok(())
        } else {
            Err(format!("missing: {path}"))
        }
    }

    pub fn number(&self, name: &str) -> u64 {
        self.numbers.iter().find(|(known, _)| *known == name).expect("an option that is known").1
    }

    pub fn size(&self, name: &str) -> usize {
        self.number(name) as usize
    }
}

pub struct Failure {
    /// the program's answer is at fault, and not the second reading
    pub by_program: bool,
    pub why: &'static str,
    /// what the program was given, with its name
    pub input: (&'static str, String),
    pub expected: String,
    pub got: String,
}

/// The tests performed.
#[derive(Default)]
pub struct Tests {
    done: usize,
    /// with the number of the test and its category
    failures: Vec<(usize, &'static str, Failure)>,
    /// by category: tests and failures
    categories: BTreeMap<&'static str, (usize, usize)>,
}

impl Tests {
    pub fn tell(&mut self, number: usize, category: &'static str, failure: Option<Failure>) {
        self.done += 1;
        let counts = self.categories.entry(category).or_default();
        counts.0 += 1;
        counts.1 += usize::from(failure.is_some());
        self.failures.extend(failure.map(|failure| (number, category, failure)));
    }

    pub fn failed(&self) -> usize {
        self.failures.len()
    }

    /// Prints the first failures, this line and the tests by category.
    pub fn show(&mut self, line: &str) {
        let cut = |text: &str| text.chars().take(SHOWN_LENGTH).collect::<String>();
        self.failures.sort_by_key(|failure| failure.0);
        for (_, category, failure) in self.failures.iter().take(SHOWN) {
            println!("{category}: {}", failure.why);
            println!("  {:<8} {}", failure.input.0, failure.input.1);
            println!("  expected {:?}", cut(&failure.expected));
            println!("  got      {:?}", cut(&failure.got));
        }
        if self.failures.len() > SHOWN {
            println!("and {} more", self.failures.len() - SHOWN);
        }
        println!("{line}");
        for (category, (all, failed)) in &self.categories {
            println!("  {category:<22} {all:>6}{}", if *failed > 0 { format!("  {failed} failed") } else { String::new() });
        }
    }

    /// Prints the last lines and ends the comparison. What must hold over all tests is one test more each, with what is said where it
    /// does not; a test that was not performed failed. The exit status is 0 only if nothing failed and so many passed.
    pub fn close(self, planned: usize, over_all: &[(bool, &str)], least_passed: usize) -> ! {
        let differences = self.failures.iter().filter(|(_, _, failure)| failure.by_program).count();
        println!("wrong answers of the program: {differences} in {} tests performed", self.done);
        let mut failed = self.failures.len();
        let mut passed = self.done - failed;
        for (holds, otherwise) in over_all {
            if *holds {
                passed += 1;
            } else {
                println!("{otherwise}");
                failed += 1;
            }
        }
        if self.done < planned {
            println!("{} tests were not performed", planned - self.done);
            failed += planned - self.done;
        }
        println!("{passed} passed, {failed} failed");
        exit(i32::from(failed > 0 || passed < least_passed))
    }
}
