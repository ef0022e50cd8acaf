//! The oracle: the published guidance with document 01's stand-in arithmetic, and around it
//! what document 01 adds. See tools/oracle/README.md for the commands.

mod agree;
mod callers;
mod codec;
mod compact;
mod configuration;
mod desk;
mod edition;
mod flown;
mod functions;
mod generate;
mod guidance;
mod lateral;
mod limits;
mod numbers;
mod original;
mod path;
mod places;
mod record;
mod route;
mod tally;
mod trigonometry;

use std::io::{Read, Write};

use desk::{Form, Print};
use functions::Words;
use numbers::Random;
use tally::Tally;

fn input() -> Vec<u8> {
    let mut bytes = Vec::new();
    std::io::stdin().read_to_end(&mut bytes).expect("standard input can be read");
    bytes
}

fn output(bytes: &[u8]) {
    std::io::stdout().write_all(bytes).expect("standard output can be written");
}

fn print_for(option: Option<&str>) -> Print {
    match option {
        None => Print::Answers,
        Some("--state") => Print::Both,
        Some("--state-only") => Print::State,
        Some(other) => usage(&format!("unknown option {other}")),
    }
}

/// The lines for one input, or with `--many` for each of many, each under a line with its number.
fn lines(form: Form, options: &[String]) -> String {
    let many = options.iter().any(|option| option == "--many");
    let print = print_for(options.iter().map(String::as_str).find(|option| *option != "--many"));
    let bytes = input();
    if !many {
        return desk::lines(&bytes, form, print);
    }
    let texts = parts(&bytes).into_iter().enumerate();
    texts.map(|(n, part)| format!("input {}\n{}", n + 1, desk::lines(part, form, print))).collect()
}

/// Recordings compacted: one, or with `--many` each of many, under a line with its number.
fn compacted(options: &[String]) -> String {
    let bytes = input();
    match options.first().map(String::as_str) {
        None => compact::text(&bytes),
        Some("--many") => {
            let texts = parts(&bytes).into_iter().enumerate();
            texts.map(|(n, part)| format!("input {}\n{}", n + 1, compact::text(part))).collect()
        }
        Some(other) => usage(&format!("unknown option {other}")),
    }
}

/// Pairs of recordings held together, a line each: the box's, then the display's, each after its length.
fn agreed() -> String {
    let bytes = input();
    parts(&bytes).chunks(2).map(|pair| agree::text(pair[0], pair[1])).collect()
}

/// Many inputs, each after its length, four bytes, low byte first.
fn parts(mut bytes: &[u8]) -> Vec<&[u8]> {
    let mut parts = Vec::new();
    while let Some((length, rest)) = bytes.split_first_chunk::<4>() {
        let (part, rest) = rest.split_at(u32::from_le_bytes(*length) as usize);
        parts.push(part);
        bytes = rest;
    }
    parts
}

fn number(arguments: &[String], index: usize) -> u64 {
    match arguments.get(index).map(|text| text.parse()) {
        Some(Ok(number)) => number,
        _ => usage("a number is missing"),
    }
}

fn usage(problem: &str) -> ! {
    eprintln!("oracle: {problem}; tools/oracle/README.md lists the commands");
    std::process::exit(2);
}

/// Lines `name word..` become `name word.. -> word..`.
fn evaluate(text: &str) -> String {
    let functions = functions::all();
    let mut out = String::new();
    for line in text.lines().filter(|line| !line.trim().is_empty()) {
        let parts: Vec<&str> = line.split_whitespace().collect();
        let Some(function) = functions.iter().find(|function| function.name == parts[0]) else {
            usage(&format!("no function {}", parts[0]));
        };
        let word = |text: &&str| u32::from_str_radix(text, 16).unwrap_or_else(|_| usage("not a word"));
        let words: Vec<u32> = parts[1..].iter().map(word).collect();
        if words.len() != function.columns.len() {
            usage(&format!("{} takes {} words", function.name, function.columns.len()));
        }
        let answer = (function.run)(&mut Words::new(&words));
        let answer: Vec<String> = answer.iter().map(|word| format!("{word:08x}")).collect();
        out += &format!("{} -> {}\n", parts.join(" "), answer.join(" "));
    }
    out
}

/// Rows of a function: its input words, then its answer's words, each low byte first. So many
/// are drawn by the seed, after the corner rows of a function of one or two numbers.
fn rows(name: &str, seed: u64, count: u64) -> Vec<u8> {
    let functions = functions::all();
    let Some(function) = functions.iter().find(|function| function.name == name) else {
        usage(&format!("no function {name}"));
    };
    let mut random = Random::new(seed);
    let drawn = (0..count).map(|_| numbers::row(&mut random, &function.columns));
    let mut bytes = Vec::new();
    for mut row in numbers::corner_rows(&function.columns).into_iter().chain(drawn) {
        function.settle(&mut row);
        row.extend((function.run)(&mut Words::new(&row)));
        bytes.extend(row.iter().flat_map(|word| word.to_le_bytes()));
    }
    bytes
}

/// A line for each function: its name, its number of input words and of answer words.
fn list_functions() -> String {
    let line = |function: functions::Function| {
        let inputs = vec![0; function.columns.len()];
        let answer = (function.run)(&mut Words::new(&inputs));
        format!("{} {} {}\n", function.name, inputs.len(), answer.len())
    };
    functions::all().into_iter().map(line).collect()
}

/// A generated input as a recording or a list.
fn generate(kind: &str, seed: u64, calls: u64, form: Form) -> Vec<u8> {
    if kind == "records" {
        return generate::records(seed, calls as usize);
    }
    match generate::input(kind, seed, calls as usize) {
        Some(input) => input.bytes(form),
        None => usage(&format!("no generator {kind}")),
    }
}

/// Many inputs, of seeds one after the other, in the form that `parts` reads.
fn generate_many(kind: &str, seed: u64, inputs: u64, calls: u64, form: Form) -> Vec<u8> {
    let mut bytes = Vec::new();
    for seed in seed..seed + inputs {
        let part = generate(kind, seed, calls, form);
        bytes.extend((part.len() as u32).to_le_bytes());
        bytes.extend(part);
    }
    bytes
}

fn form_for(word: Option<&String>) -> Form {
    if word.is_some_and(|form| form == "list") { Form::List } else { Form::Recording }
}

/// Counts over groups of generated inputs: of a kind, or of the four, so many, each with so many calls.
fn count(groups: &[String]) -> String {
    let mut tally = Tally::default();
    for group in groups.chunks(4) {
        let (seed, inputs, calls) = (number(group, 1), number(group, 2), number(group, 3));
        let kinds = if group[0] == "all" { generate::KINDS.to_vec() } else { vec![group[0].as_str()] };
        for kind in kinds {
            for seed in seed..seed + inputs {
                tally.run(&generate(kind, seed, calls, Form::List), Form::List);
            }
        }
    }
    report(&tally)
}

/// Counts over files: `.list` in the name says a list, `.hex` hexadecimal text.
fn count_files(names: &[String]) -> String {
    let mut tally = Tally::default();
    for name in names {
        let form = if name.contains(".list") { Form::List } else { Form::Recording };
        tally.run(&file_bytes(name), form);
    }
    report(&tally)
}

fn report(tally: &Tally) -> String {
    places::check();
    let missing = places::missing().join("\n");
    format!("{}{}\nnever taken\n{missing}\n", tally.print(), places::print())
}

fn file_bytes(name: &str) -> Vec<u8> {
    let bytes = std::fs::read(name).unwrap_or_else(|_| usage(&format!("{name} cannot be read")));
    if !name.ends_with(".hex") {
        return bytes;
    }
    let text = String::from_utf8_lossy(&bytes);
    let digits = text.lines().map(|line| line.split('#').next().unwrap_or("")).collect::<String>();
    let digits: Vec<u8> = digits.bytes().filter(|byte| !byte.is_ascii_whitespace()).collect();
    let byte = |pair: &[u8]| u8::from_str_radix(&String::from_utf8_lossy(pair), 16);
    digits.chunks(2).map(|pair| byte(pair).unwrap_or_else(|_| usage("not hexadecimal"))).collect()
}

fn main() {
    let arguments: Vec<String> = std::env::args().skip(1).collect();
    let rest = arguments.get(1..).unwrap_or(&[]);
    match arguments.first().map(String::as_str) {
        Some("desk") => output(lines(Form::Recording, rest).as_bytes()),
        Some("list") => output(lines(Form::List, rest).as_bytes()),
        Some("compact") => output(compacted(rest).as_bytes()),
        Some("agree") => output(agreed().as_bytes()),
        Some("rewrite") => {
            let (bytes, end) = desk::rewrite(&input());
            output(&bytes);
            if let Err(number) = end {
                eprintln!("stopped {number}");
                std::process::exit(1);
            }
        }
        Some("routes") => output(route::lines(&input()).0.as_bytes()),
        Some("refused-loads") => output(route::lines(&input()).1.as_bytes()),
        Some("generate-routes") if rest.len() == 2 => output(&route::generate(number(rest, 0), number(rest, 1) as usize)),
        Some("callers") => output(callers::lines(&input()).as_bytes()),
        Some("generate-callers") if rest.len() == 2 => output(&callers::generate(number(rest, 0), number(rest, 1) as usize)),
        Some("editions") => output(edition::lines(&input()).as_bytes()),
        Some("generate-editions") if rest.len() == 2 => output(&edition::generate(number(rest, 0), number(rest, 1) as usize)),
        Some("records") => output(codec::lines(&input()).as_bytes()),
        Some("evaluate") => output(evaluate(&String::from_utf8_lossy(&input())).as_bytes()),
        Some("functions") => output(list_functions().as_bytes()),
        Some("rows") if rest.len() == 3 => output(&rows(&rest[0], number(rest, 1), number(rest, 2))),
        Some("generate") if rest.len() >= 3 => {
            output(&generate(&rest[0], number(rest, 1), number(rest, 2), form_for(rest.get(3))));
        }
        Some("generate-many") if rest.len() >= 4 => {
            let (seed, inputs, calls) = (number(rest, 1), number(rest, 2), number(rest, 3));
            output(&generate_many(&rest[0], seed, inputs, calls, form_for(rest.get(4))));
        }
        Some("count") if !rest.is_empty() => output(count(rest).as_bytes()),
        Some("original") => output(original::beside(&input()).as_bytes()),
        Some("paths") if rest.len() == 1 => output(path::lines(&input(), number(rest, 0) as usize).as_bytes()),
        Some("path-at") if rest.len() == 2 => match path::at_call(&input(), number(rest, 0) as usize, number(rest, 1) as usize) {
            Some(text) => output(text.as_bytes()),
            None => usage("the recording has no such waypoint call"),
        },
        Some("trigonometry") => output(trigonometry::report().as_bytes()),
        Some("sides") => output(trigonometry::sides().as_bytes()),
        Some("count-files") => output(count_files(rest).as_bytes()),
        _ => usage("no such command"),
    }
}
