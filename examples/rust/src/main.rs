//! Asks goals of a book from Rust:   ask_book_rust BOOK GOAL DEPTH [GOAL DEPTH ...]
//!
//! Exit status: 0 every question was answered, 1 one was refused, 2 nothing could be asked.
use search_graph::Questions;
use std::process::ExitCode;

fn main() -> ExitCode {
    let args: Vec<String> = std::env::args().skip(1).collect();
    let numbers: Option<Vec<usize>> = args.iter().skip(1).map(|a| a.parse().ok()).collect();
    let numbers = match numbers {
        Some(n) if !n.is_empty() && n.len() % 2 == 0 => n,
        _ => {
            eprintln!("usage: ask_book_rust BOOK GOAL DEPTH [GOAL DEPTH ...]");
            return ExitCode::from(2);
        }
    };
    let book = match std::fs::read(&args[0]) {
        Ok(book) => book,
        Err(e) => {
            eprintln!("ask_book_rust: {}: {e}", args[0]);
            return ExitCode::from(2);
        }
    };
    let mut questions = Questions::new(book);
    let mut status = 0;
    for asked in numbers.chunks(2) {
        let (goal, depth) = (asked[0], asked[1]);
        match questions.ask(goal, depth) {
            Ok(answer) => println!("goal {goal} at depth {depth}: {answer}"),
            Err(refusal) => {
                println!("goal {goal} at depth {depth}: refused, {refusal}");
                status = 1;
            }
        }
    }
    ExitCode::from(status)
}
