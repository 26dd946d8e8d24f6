//! Writes PAPERS.md to standard output; with `whole`, each row's problem with
//! one statement a constraint.

use separate::papers::{document, SOURCES};
use separate::text::Problem;

fn main() {
    if std::env::args().nth(1).as_deref() != Some("whole") {
        print!("{}", document());
        return;
    }
    for source in &SOURCES {
        for (at, row) in source.rows.iter().enumerate() {
            match Problem::read(row.text) {
                Ok(problem) => println!("{}.{} {}", source.file, at + 1, problem.whole()),
                Err(fault) => println!("{}.{} {}: {fault}", source.file, at + 1, row.text),
            }
        }
    }
}
