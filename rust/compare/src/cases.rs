//! A case as one line, and such a line run again.

use std::fmt::Write;

use reference::day::{Investor, MarketMaker};
use reference::jobs::Job;
use reference::{Form, List, Terms};

use crate::books::{self, Book};
use crate::branches::{Branch, Branches};
use crate::make::Series;
use crate::program::{Feed, Program};

fn list(numbers: &[u32]) -> String {
    if numbers.is_empty() {
        return "-".to_string();
    }
    numbers.iter().map(u32::to_string).collect::<Vec<_>>().join(",")
}

fn hex(bytes: &[u8]) -> String {
    if bytes.is_empty() {
        return "-".to_string();
    }
    let mut out = String::new();
    for b in bytes {
        write!(out, "{b:02x}").unwrap();
    }
    out
}

// The method as its letter, another byte as its number.
fn shown(Terms { method, exercised, draw, increment }: Terms) -> String {
    let method = if method.is_ascii_alphabetic() { char::from(method).to_string() } else { method.to_string() };
    format!("{method} {exercised} {draw} {increment}")
}

// The form as the word that line 3 has for it.
fn lists(List { form, codes, accounts, numbers }: List) -> String {
    let form = match form {
        Form::Shorts => "short",
        Form::LastNumbers => "last",
    };
    format!("{form} {}", [codes, accounts, numbers].map(list).join(" "))
}

pub fn allocate(terms: Terms, list: List, room: usize) -> String {
    format!("allocate {} {} {room}", shown(terms), lists(list))
}

// Each job as first, positions and terms with `:` between them.
fn jobs(jobs: &[Job]) -> String {
    if jobs.is_empty() {
        return "-".to_string();
    }
    let job = |job: &Job| format!("{} {} {}", job.first, job.positions, shown(job.terms)).replace(' ', ":");
    jobs.iter().map(job).collect::<Vec<_>>().join(",")
}

/// The answers that the records hold before the call are not shown.
pub fn allocate_jobs(book: &Book) -> String {
    let Book { accounts, shorts, jobs: of_book, room } = book;
    format!("allocate_jobs {} {} {} {room}", list(accounts), list(shorts), jobs(of_book))
}

pub fn merge(branches: &Branches) -> String {
    let lists = branches.lists.each_ref().map(|of| format!("{} {}", list(&of.accounts), list(&of.shorts)));
    format!("merge {} {}", lists.join(" "), branches.rooms.map(|room| room.to_string()).join(" "))
}

pub fn read(text: &[u8], rooms: [usize; 3]) -> String {
    format!("read {} {}", hex(text), rooms.map(|room| room.to_string()).join(" "))
}

pub fn write(terms: Terms, list: List, room: usize) -> String {
    format!("write {} {} {room}", shown(terms), lists(list))
}

pub fn change(text: &[u8], room: usize) -> String {
    format!("change {} {room}", hex(text))
}

pub fn respond(text: &[u8], room: usize) -> String {
    format!("respond {} {room}", hex(text))
}

pub fn process_investor(day: u32, counts: Investor) -> String {
    format!("process_investor {day} {}", list(&counts))
}

pub fn process_market_maker(day: u32, counts: MarketMaker) -> String {
    format!("process_market_maker {day} {}", list(&counts))
}

pub fn explain(number: u32, line: &[u8], room: usize) -> String {
    format!("explain {number} {} {room}", hex(line))
}

pub fn program(program: Program, text: &[u8], feed: Feed) -> String {
    let by = match feed {
        Feed::Pipe => "pipe".to_string(),
        Feed::File => "file".to_string(),
        Feed::Pieces(size) => size.to_string(),
    };
    format!("{} {by} {}", program.name(), hex(text))
}

fn to_method(word: &str) -> u8 {
    word.parse().unwrap_or_else(|_| word.as_bytes()[0])
}

fn to_form(word: &str) -> Form {
    match word {
        "short" => Form::Shorts,
        "last" => Form::LastNumbers,
        other => panic!("no such form: {other}"),
    }
}

fn to_feed(word: &str) -> Feed {
    match word {
        "pipe" => Feed::Pipe,
        "file" => Feed::File,
        size => Feed::Pieces(size.parse().expect("pipe, file or a size")),
    }
}

fn to_list(word: &str) -> Vec<u32> {
    if word == "-" {
        return Vec::new();
    }
    word.split(',').map(|n| n.parse().expect("a number")).collect()
}

fn to_jobs(word: &str) -> Vec<Job> {
    if word == "-" {
        return Vec::new();
    }
    let job = |job: &str| {
        let parts: Vec<&str> = job.split(':').collect();
        let [first, positions, exercised, draw, increment] =
            [0, 1, 3, 4, 5].map(|i| parts[i].parse().expect("a number"));
        books::job(first, positions, Terms { method: to_method(parts[2]), exercised, draw, increment })
    };
    word.split(',').map(job).collect()
}

fn to_counts<const N: usize>(word: &str) -> [u32; N] {
    to_list(word).try_into().expect("the counts of a day")
}

fn to_bytes(word: &str) -> Vec<u8> {
    if word == "-" {
        return Vec::new();
    }
    (0..word.len() / 2).map(|i| u8::from_str_radix(&word[2 * i..2 * i + 2], 16).expect("two hex digits")).collect()
}

/// Runs the case of a printed line.
pub fn again(line: &str) -> Result<bool, String> {
    let words: Vec<&str> = line.split_whitespace().collect();
    let n = |i: usize| words[i].parse::<u32>().expect("a number");
    let room = |i: usize| words[i].parse::<usize>().expect("a length");
    // Of the calls that take terms and a list.
    let terms = || Terms { method: to_method(words[1]), exercised: n(2), draw: n(3), increment: n(4) };
    let series = || {
        let [codes, accounts, numbers] = [6, 7, 8].map(|i| to_list(words[i]));
        Series { form: to_form(words[5]), codes, accounts, numbers }
    };
    match words[0] {
        "allocate" => crate::allocate(terms(), series().list(), room(9)).map(|number| number == 0),
        "allocate_jobs" => {
            let [accounts, shorts] = [1, 2].map(|i| to_list(words[i]));
            let book = Book { accounts, shorts, jobs: to_jobs(words[3]), room: room(4) };
            crate::allocate_jobs(&book).map(|(number, _)| number == 0)
        }
        "merge" => {
            let lists = [1, 3].map(|i| Branch { accounts: to_list(words[i]), shorts: to_list(words[i + 1]) });
            crate::merge(&Branches { lists, rooms: [5, 6].map(room) }).map(|number| number == 0)
        }
        "read" => crate::read(&to_bytes(words[1]), [2, 3, 4].map(room)),
        "write" => crate::write(terms(), series().list(), room(9)),
        "change" => crate::change(&to_bytes(words[1]), room(2)),
        "respond" => crate::respond(&to_bytes(words[1]), room(2)),
        "process_investor" => crate::process_investor(n(1), to_counts(words[2])).map(|number| number == 0),
        "process_market_maker" => crate::process_market_maker(n(1), to_counts(words[2])).map(|number| number == 0),
        "explain" => crate::explain(n(1), &to_bytes(words[2]), room(3)),
        "assign" => Program::Assign.compare(&to_bytes(words[2]), to_feed(words[1])),
        "change_form" => Program::ChangeForm.compare(&to_bytes(words[2]), to_feed(words[1])),
        other => panic!("no such call: {other}"),
    }
}
