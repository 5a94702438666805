//! Refusals 1 to 10 and 15, by hand.

use crate::marked::{hex, stating, task_11};
use crate::Test;
use reference::model::*;
use reference::task::{read, record, write, EDGE, END, HEADER, STATE};

pub const TESTS: &[Test] = &[
    ("reader: refusals by hand", by_hand),
    ("reader: 64 edges are taken, the 65th is refused", edge_count),
    ("reader: right model is checked like the left", right_model),
    ("reader: every cut of a valid task is refused with 2", every_cut),
    ("reader: what is written is read back", read_back),
];

/// One register, one state that holds it.
const A: &str = "01 01 01 00  02 00 01 00 ";
/// Two registers; state 0 holds both, state 1 the first.
const B: &str = "01 02 02 00  02 00 03 00  02 01 01 00 ";

fn refusal(bytes: &[u8]) -> u32 {
    read(bytes).err().map_or(0, |r| r.0)
}

fn expect(parts: &[&str], wanted: u32) {
    let text = parts.join(" ");
    assert_eq!(refusal(&hex(&text)), wanted, "{text}");
}

fn by_hand() {
    kinds_and_lengths();
    places();
    headers_and_states();
    edges();
    pairs();
    history_places();
    history_sizes();
    after_the_end();
}

fn kinds_and_lengths() {
    expect(&[""], 2);
    for unknown in ["00", "06", "0e", "10", "11", "ff", "00 01 02 03"] {
        expect(&[unknown], 1);
        expect(&[A, unknown], 1);
        expect(&[A, A, unknown], 1);
    }
    for cut in ["01", "01 01", "01 01 01", "02 00 00", "03 00 00 00 00", "04 01", "05"] {
        // Cut and, but for the header, misplaced: the lower number counts.
        expect(&[cut], 2);
        expect(&[A, A, cut], 2);
    }
    // Complete but for the end.
    expect(&[A, A], 2);
    expect(&[A, A, "0f"], 0);
    // File order: the bad header comes before the missing end.
    expect(&["01 07 01 00"], 4);
}

fn places() {
    for misplaced in ["0f", "02 00 00 00", "03 00 00 00 01 00", "04 01 01", "05 0d"] {
        expect(&[misplaced], 3);
    }
    // One of two states is still missing.
    for misplaced in ["0f", "01 01 01 00", "03 00 00 00 01 00", "04 01 01", "05 0d"] {
        expect(&["01 01 02 00", "02 00 01 00", misplaced], 3);
    }
    // End, or pairs, before the right model is complete.
    expect(&[A, "0f"], 3);
    expect(&[A, "04 01 01"], 3);
    expect(&[A, "01 01 01 00", "0f"], 3);
    expect(&[A, "01 01 01 00", "04 01 01"], 3);
    expect(&[A, "01 01 01 00", "03 00 00 00 01 00"], 3);
    // A second header while states are missing; a third header.
    expect(&["01 00 01 00 01 00 01 00"], 3);
    expect(&["01 00 01 00 01 07 00 09"], 3);
    expect(&[A, A, A], 3);
    // More states than announced, whatever their number.
    expect(&[A, "02 01 00 00"], 3);
    expect(&[A, "02 00 01 00"], 3);
    expect(&[A, A, "02 01 00 00"], 3);
    expect(&[A, "03 00 00 00 01 00", "02 01 00 00"], 3);
    // A model's edge after the pairs have begun.
    expect(&[A, A, "04 01 01", "03 00 00 00 01 00"], 3);
}

fn headers_and_states() {
    for bad in
        ["01 07 01 00", "01 06 00 00", "01 06 11 00", "01 06 10 10", "01 00 01 01", "01 ff ff ff"]
    {
        expect(&[bad], 4);
        expect(&[A, bad], 4);
    }
    expect(&["01 06 10 0f"], 2);
    expect(&["01 00 01 00  02 00 00 00  01 00 01 00  02 00 00 01  0f"], 0);
    for bad in
        ["02 01 00 00", "02 00 02 00", "02 00 80 00", "02 00 01 02", "02 00 00 ff", "02 ff ff ff"]
    {
        expect(&["01 01 01 00", bad], 5);
        expect(&[A, "01 01 01 00", bad], 5);
    }
    expect(&["01 06 01 00", "02 00 40 00"], 5);
    expect(&["01 06 01 00", "02 00 3f 01"], 2);
    expect(&["01 00 02 00", "02 00 00 00", "02 00 00 00"], 5);
}

fn edges() {
    for bad in [
        "03 01 00 00 01 00", // from state
        "03 00 20 00 01 00", // tag
        "03 00 00 03 01 00", // kind
        "03 00 00 00 00 00", // register 0
        "03 00 00 00 02 00", // register 2 of 1
        "03 00 00 00 01 01", // to state
        "03 ff ff ff ff ff",
    ] {
        expect(&[A, bad], 6);
        expect(&[A, A, bad], 6);
    }
    expect(&[A, "03 00 1f 02 01 00"], 2);
    // No register exists, so no edge does.
    expect(&["01 00 01 00", "02 00 00 00", "03 00 00 01 01 00"], 6);
    // Known edges: register held, target set inside.
    expect(&[B, "03 01 00 00 02 01"], 7);
    expect(&[B, "03 01 00 00 01 00"], 7);
    expect(&[B, "03 00 00 00 02 01"], 2);
    // Fresh edges: target set inside the set with the register added.
    expect(&[B, "03 01 00 01 01 00"], 7);
    expect(&[B, "03 01 00 02 01 00"], 7);
    expect(&[B, "03 01 00 01 02 00"], 2);
    expect(&[B, "03 01 00 02 02 00"], 2);
    expect(&[B, "03 01 00 01 02 01"], 2);
    // Order; equal edges do not rise. 7 comes before 8.
    expect(&[A, "03 00 01 00 01 00", "03 00 01 00 01 00"], 8);
    expect(&[A, "03 00 01 00 01 00", "03 00 00 01 01 00"], 8);
    expect(&[A, "03 00 01 00 01 00", "03 00 01 01 01 00"], 2);
    expect(&[B, "03 01 01 00 01 01", "03 01 00 00 02 01"], 7);
    // The right model's edges begin anew.
    expect(&[A, "03 00 01 00 01 00", A, "03 00 00 00 01 00", "0f"], 0);
}

fn pairs() {
    for bad in ["04 00 01", "04 01 00", "04 02 01", "04 01 02", "04 07 01", "04 01 09", "04 ff ff"]
    {
        expect(&[A, A, bad], 10);
    }
    expect(&[A, A, "04 01 01", "0f"], 0);
    expect(&[A, A, "04 01 01", "04 01 01"], 10);
    expect(&[B, B, "04 01 02", "04 02 01", "0f"], 0);
    expect(&[B, B, "04 02 01", "04 01 02", "0f"], 10);
    expect(&[B, B, "04 01 02", "04 02 02", "0f"], 10);
    // Register 2 is held in state 0, but the start is state 1.
    let other_start = "01 02 02 01  02 00 03 00  02 01 01 00 ";
    expect(&[other_start, B, "04 02 01"], 10);
    expect(&[B, other_start, "04 01 02"], 10);
}

fn history_places() {
    // Before the right model is complete.
    expect(&[A, "05 0d"], 3);
    expect(&[A, "01 01 01 00", "05 0d"], 3);
    // After edges and pairs, or with none of them.
    expect(&[A, A, "05 0d", "0f"], 0);
    expect(&[A, A, "03 00 00 00 01 00", "05 0d", "0f"], 0);
    expect(&[A, A, "04 01 01", "05 0d", "0f"], 0);
    // Only an end may follow.
    for second in ["05 0d", "05 0e", "04 01 01", "03 00 00 00 01 00", "02 01 00 00", "01 01 01 00"]
    {
        expect(&[A, A, "05 0d", second], 3);
        expect(&[A, A, "05 0d", second, "0f"], 3);
    }
    expect(&[A, A, "05 0d", "05"], 2);
    expect(&[A, A, "05 0d", "06"], 1);
    // It is no end.
    expect(&[A, A, "05 0d"], 2);
    // Misplaced or cut, with a wrong size or without one: 2, then 3, then 15.
    expect(&[A, "05 0e"], 3);
    expect(&["05 ff"], 3);
    expect(&["05"], 2);
    expect(&[A, A, "05"], 2);
    // Records are checked in file order.
    expect(&[A, A, "05 0e", "04 01 01"], 15);
    expect(&[A, A, "04 01 02", "05 0e"], 10);
    expect(&[A, A, "05 0e", "ff"], 15);
}

fn history_sizes() {
    let none = "01 00 01 00  02 00 00 00 ";
    for (models, pairs, held) in [
        ([none, none], "", 0),
        ([A, none], "", 1),
        ([none, A], "", 1),
        ([A, A], "", 2),
        ([A, A], "04 01 01 ", 1),
        ([B, A], "", 3),
        ([A, B], "04 01 02 ", 2),
        ([B, B], "04 01 01 04 02 02 ", 2),
    ] {
        for size in 0..=255 {
            let wanted = if (held..=13).contains(&size) { 0 } else { 15 };
            expect(&[models[0], models[1], pairs, &format!("05 {size:02x} 0f")], wanted);
        }
    }
    // Six registers a side, none shared: 12 is the least.
    let six = "01 06 01 00  02 00 3f 00 ";
    for (size, wanted) in [("0b", 15), ("0c", 0), ("0d", 0), ("0e", 15)] {
        expect(&[six, six, "05", size, "0f"], wanted);
    }
    // What other states hold does not count: state 0 of B holds two.
    let other_start = "01 02 02 01  02 00 03 00  02 01 01 00 ";
    expect(&[other_start, other_start, "05 02 0f"], 0);
    expect(&[other_start, other_start, "05 01 0f"], 15);
}

fn after_the_end() {
    expect(&[A, A, "0f", "05"], 2);
    expect(&[A, A, "0f", "05 0d"], 3);
    expect(&[A, A, "0f", "05 0e"], 3);
    expect(&[A, A, "05 0d", "0f", "05 0d"], 3);
    expect(&[A, A, "0f", "00"], 1);
    expect(&[A, A, "0f", "01"], 2);
    expect(&[A, A, "0f", "04 01"], 2);
    expect(&[A, A, "0f", "0f"], 3);
    expect(&[A, A, "0f", "0f 00"], 3);
    expect(&[A, A, "0f", "01 ff ff ff"], 3);
    expect(&[A, A, "0f", "04 01 01"], 3);
}

/// A model with one state, one register and this many edges.
fn with_edges(count: usize) -> Vec<Vec<u8>> {
    let mut list = vec![record(HEADER, &[1, 1, 0]), record(STATE, &[0, 1, 0])];
    for number in 0..count {
        let body = [0, (number / 3) as u8, (number % 3) as u8, 1, 0];
        list.push(record(EDGE, &body));
    }
    list
}

fn edge_count() {
    let end = record(END, &[]);
    let whole = |left: usize, right: usize| {
        [with_edges(left).concat(), with_edges(right).concat(), end.clone()].concat()
    };
    assert_eq!(refusal(&whole(64, 64)), 0);
    assert_eq!(refusal(&whole(65, 0)), 9);
    assert_eq!(refusal(&whole(0, 65)), 9);
    assert_eq!(refusal(&whole(66, 66)), 9);
    let with_last = |body: &[u8]| [with_edges(64).concat(), record(EDGE, body)].concat();
    assert_eq!(refusal(&with_last(&[0, 0, 0, 1, 0])), 8);
    assert_eq!(refusal(&with_last(&[0, 40, 0, 1, 0])), 6);
    assert_eq!(refusal(&with_last(&[0, 31, 0, 1, 0])), 9);
}

fn right_model() {
    for bad in ["02 01 00 00", "03 00 00 00 01 00"] {
        let wanted = if bad.starts_with("02") { 5 } else { 3 };
        expect(&[A, "01 01 01 00", bad], wanted);
    }
}

fn every_cut() {
    for task in [task_11(), stating(task_11(), 5)] {
        assert_eq!(refusal(&task), 0);
        for length in 0..task.len() {
            assert_eq!(refusal(&task[..length]), 2, "cut to {length}");
        }
    }
}

fn read_back() {
    let bytes = hex(&[B, "03 00 02 01 02 01", B, "03 01 1f 02 02 00", "04 01 02", "0f"].join(" "));
    let task = read(&bytes).expect("a valid task");
    assert_eq!(task.left.registers, 2);
    assert_eq!(task.left.states[1], State { set: RegisterSet(1), end_mark: 0 });
    let edge = Edge { from: 1, tag: 31, kind: Kind::GloballyFresh, register: 2, to: 0 };
    assert_eq!(task.right.edges, vec![edge]);
    assert_eq!(task.pairs, vec![(1, 2)]);
    assert_eq!(write(&task), bytes);
    assert_eq!((task.history_record, task.history()), (None, 13));
    // A record is written again exactly if it stood there.
    for size in [3, 12, 13] {
        let stated = stating(bytes.clone(), size);
        let task = read(&stated).expect("a valid task");
        assert_eq!((task.history_record, task.history()), (Some(size), size));
        assert_eq!(write(&task), stated);
        assert_eq!(task.exchanged().history_record, Some(size));
    }
}
