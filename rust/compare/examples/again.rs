//! Runs printed cases again, one from each line of standard input:
//! `cargo run --release --example again < cases`

use std::io::BufRead;

fn main() {
    let mut differ = 0;
    for line in std::io::stdin().lock().lines() {
        let line = line.expect("a line");
        if line.trim().is_empty() {
            continue;
        }
        match compare::cases::again(&line) {
            Ok(accepted) => println!("equal, {}", if accepted { "accepted" } else { "refused" }),
            Err(shown) => {
                differ += 1;
                println!("differs: {shown}");
            }
        }
    }
    std::process::exit(if differ == 0 { 0 } else { 1 });
}
