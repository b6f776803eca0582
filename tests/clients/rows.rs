//! Rows of the tables through the Rust crate: rows CALL WORD .., with the words of the programs.

mod made;

use std::io::Write;
use std::process::ExitCode;

/// The text of clauses that were given as numbers, with the comments of `aigcheck clauses`.
fn text_of(clauses: &aig::Clauses) -> String {
    let comment = |letter, i, t, lit: &i32| format!("c {letter}{i} at step {t} is {lit}\n");
    let inputs = clauses.inputs.iter().enumerate().flat_map(|(t, row)| row.iter().enumerate().map(move |(i, lit)| comment('i', i, t, lit)));
    let latches = clauses.latches.iter().enumerate().map(|(i, lit)| comment('l', i, 0, lit));
    let last = clauses.inputs.len() - 1;
    let bads = clauses.bads.iter().enumerate().map(|(i, lit)| comment('b', i, last, lit));
    let count = clauses.numbers.iter().filter(|number| **number == 0).count();
    let numbers = clauses.numbers.iter().map(|number| if *number == 0 { "0\n".to_string() } else { format!("{number} ") });
    let head = format!("p cnf {} {count}\n", clauses.variables);
    inputs.chain(latches).chain(bads).chain([head]).chain(numbers).collect()
}

fn main() -> ExitCode {
    let words: Vec<String> = std::env::args().skip(1).collect();
    let has = |name: &str| words.iter().any(|word| word == name);
    let mut numbers: Vec<u64> = words.iter().skip(2).filter_map(|word| word.parse().ok()).collect();
    numbers.resize(2, 0);
    let is_path = |word: &&String| word.parse::<u64>().is_err() && !["raw", "distinct", "to", "by"].contains(&word.as_str());
    let read: Vec<Vec<u8>> = words.iter().skip(1).filter(is_path).map(|path| std::fs::read(path).expect("a file")).collect();
    let files: Vec<&[u8]> = read.iter().map(Vec::as_slice).collect();
    let optimize = !has("raw");
    let line = |text: String| text.into_bytes();
    let answer = match words[0].as_str() {
        "query_numbers" => aig::query_numbers(files[0], numbers[0], optimize).map(|clauses| line(text_of(&clauses))),
        "check_run" => aig::check_run(files[0], files[1]).map(|shown| line(format!("b{} at step {}\n", shown.bad, shown.step))),
        "check_lasso" => aig::check_lasso(files[0], files[1])
            .map(|shown| line(format!("j{} in a loop from step {} to {}\n", shown.justice, shown.start, shown.last))),
        call => match made::answer(call, &files, &numbers, has("distinct"), optimize) {
            Some(answer) => answer,
            None => return ExitCode::from(2),
        },
    };
    match answer {
        Ok(bytes) => {
            std::io::stdout().write_all(&bytes).expect("room");
            ExitCode::SUCCESS
        }
        Err(status) => {
            eprintln!("rows: {status}");
            ExitCode::FAILURE
        }
    }
}
