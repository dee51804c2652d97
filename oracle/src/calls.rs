// Reads sequences of board calls written as text and prints them as JSON with
// the reference's answer and the whole state after each call. A sequence is
// a few lines `word: text`, and an empty line parts it from the next:
//   name: any text            distinguishes: any text
//   grid: 2,2 ,/0,0           calls: decide 1 2 1; checkpoint; undo; read 0 1

use crate::answers::{replay, Call, Pads, BLANK};

struct Sequence {
    name: String,
    distinguishes: String,
    pads: Pads,
    calls: Vec<Call>,
}

/// A grid written as H,W, a space, and the rows parted by /.
pub fn read_pads(text: &str) -> Pads {
    let (size, rows) = text.split_once(' ').expect("a size and rows");
    let (height, width) = size.split_once(',').expect("H,W");
    let cells: Vec<i64> = rows
        .split('/')
        .flat_map(|row| row.split(','))
        .map(|cell| {
            if cell.is_empty() {
                BLANK
            } else {
                cell.parse().expect("a code")
            }
        })
        .collect();
    let pads = Pads {
        height: height.parse().expect("H"),
        width: width.parse().expect("W"),
        cells,
    };
    assert_eq!(
        pads.cells.len(),
        pads.height * pads.width,
        "cells of {text}"
    );
    pads
}

fn read_call(text: &str) -> Call {
    let words: Vec<&str> = text.split_whitespace().collect();
    let number = |index: usize| words[index].parse::<usize>().expect("a number");
    match words[0] {
        "decide" => Call::Decide(number(1), number(2), number(3) as u8),
        "read" => Call::Read(number(1), number(2)),
        "checkpoint" => Call::Checkpoint,
        "undo" => Call::Undo,
        word => panic!("no such call: {word}"),
    }
}

fn read_sequence(block: &str) -> Sequence {
    let text = |word: &str| {
        block
            .lines()
            .find_map(|line| line.strip_prefix(word)?.strip_prefix(':'))
            .map(str::trim)
            .unwrap_or("")
    };
    Sequence {
        name: text("name").to_string(),
        distinguishes: text("distinguishes").to_string(),
        pads: read_pads(text("grid")),
        calls: text("calls")
            .split(';')
            .map(|call| read_call(call.trim()))
            .collect(),
    }
}

fn call_json(call: Call) -> String {
    match call {
        Call::Decide(row, column, state) => format!("[\"decide\", {row}, {column}, {state}]"),
        Call::Read(row, column) => format!("[\"read\", {row}, {column}]"),
        Call::Checkpoint => "[\"checkpoint\"]".to_string(),
        Call::Undo => "[\"undo\"]".to_string(),
    }
}

fn answer_json(call: Call, answer: u8) -> String {
    match call {
        Call::Decide(..) => (answer == 1).to_string(),
        Call::Read(..) => answer.to_string(),
        _ => "null".to_string(),
    }
}

fn print_sequence(sequence: &Sequence, last: bool) {
    let pads = &sequence.pads;
    println!(" {{\"name\": \"{}\",", sequence.name);
    println!("  \"distinguishes\": \"{}\",", sequence.distinguishes);
    println!(
        "  \"height\": {}, \"width\": {}, \"cells\": {:?},",
        pads.height, pads.width, pads.cells
    );
    println!("  \"calls\": [");
    let answers = replay(pads, &sequence.calls);
    for (index, (answer, state)) in answers.iter().enumerate() {
        let call = sequence.calls[index];
        println!(
            "   {{\"call\": {}, \"answer\": {}, \"flag\": {},",
            call_json(call),
            answer_json(call, *answer),
            state.flag
        );
        println!("    \"edges\": {:?},", state.edges);
        let end = if index + 1 < answers.len() { "," } else { "" };
        println!("    \"ends\": {:?}}}{end}", state.ends);
    }
    println!("  ]}}{}", if last { "" } else { "," });
}

fn read_sequences(text: &str) -> Vec<Sequence> {
    text.split("\n\n")
        .filter(|block| block.contains("calls:"))
        .map(read_sequence)
        .collect()
}

/// The grids and calls of a text.
pub fn grids_and_calls(text: &str) -> Vec<(Pads, Vec<Call>)> {
    read_sequences(text)
        .into_iter()
        .map(|sequence| (sequence.pads, sequence.calls))
        .collect()
}

pub fn print_answers(text: &str) {
    let sequences = read_sequences(text);
    println!("[");
    for (index, sequence) in sequences.iter().enumerate() {
        print_sequence(sequence, index + 1 == sequences.len());
    }
    println!("]");
}
