//! Texts that are no tasks, with the messages they must get, and texts that mean the same.
use crate::tally::{same, Tally};
use tools::text;

/// A good text, line by line. The tables below replace a line of it.
const GOOD: [&str; 9] = [
    "left registers 2 start 0",
    "  state 0 holds 1 end 0",
    "  state 1 holds 1 2 end 1",
    "  edge from 0 tag 3 known 1 to 0",
    "  edge from 0 tag 3 locally fresh 2 to 1",
    "right registers 2 start 0",
    "  state 0 holds 1 2 end 0",
    "  edge from 0 tag 3 globally fresh 2 to 0",
    "pair left 1 right 2",
];

/// The line that is replaced, what stands there instead, and the message.
#[rustfmt::skip]
const WRONG_LINES: &[(usize, &str, &str)] = &[
    (1, "", "line 2: expected `left`, found `state`"),
    (1, "right registers 2 start 0", "line 1: expected `left`, found `right`"),
    (1, "Left registers 2 start 0", "line 1: expected `left`, found `Left`"),
    (1, "left", "line 1: expected `registers`, found the end of the line"),
    (1, "left registers", "line 1: expected a count of registers from 0 to 6, found the end of the line"),
    (1, "left registers two start 0", "line 1: expected a count of registers from 0 to 6, found `two`"),
    (1, "left registers 2 start -1", "line 1: expected a start state from 0 to 15, found `-1`"),
    (1, "left registers 2 start 0 states 2", "line 1: expected the end of the line, found `states`"),
    (1, "left registers 7 start 0", "REFUSED 4 at line 1: expected at most 6 registers, found 7"),
    (1, "left registers 2 start 2", "REFUSED 4 at line 1: expected a start state that exists, found 2"),
    (2, "state 0 holds 0 end 0", "line 2: expected a register from 1 to 6, found `0`"),
    (2, "state 0 holds 9 end 0", "line 2: expected a register from 1 to 6, found `9`"),
    (2, "state 0 holds 1 1 end 0", "line 2: expected each register once, found `1`"),
    (2, "state 0 holds end 0", "line 2: expected registers from 1 to 6, or `nothing`, found `end`"),
    (2, "state 0 holds nothing 1 end 0", "line 2: expected `end`, found `1`"),
    (2, "state 0 holds 1, end 0", "line 2: expected registers from 1 to 6, or `nothing`, found `1,`"),
    (2, "state 0 end 0 holds 1", "line 2: expected `holds`, found `end`"),
    (2, "state 256 holds 1 end 0", "line 2: expected a state from 0 to 15, found `256`"),
    (2, "state 1 holds 1 end 0", "REFUSED 5 at line 2: expected state 0, found state 1"),
    (2, "state 0 holds 1 3 end 0", "REFUSED 5 at line 2: expected registers that exist (the model has 2), found register 3"),
    (2, "state 0 holds 8 end 0", "REFUSED 5 at line 2: expected registers that exist (the model has 2), found register 8"),
    (2, "state 0 holds 1 end 2", "REFUSED 5 at line 2: expected end mark 0 or 1, found 2"),
    (3, "state 0 holds 1 end 1", "REFUSED 5 at line 3: expected state 1, found state 0"),
    (4, "edge 0 tag 3 known 1 to 0", "line 4: expected `from`, found `0`"),
    (4, "edge from 0 tag 3 fresh 1 to 0", "line 4: expected `known`, `locally fresh` or `globally fresh`, found `fresh`"),
    (4, "edge from 0 tag 3 locally 1 to 0", "line 4: expected `fresh`, found `1`"),
    (4, "edge from 0 tag 3 known 1 to", "line 4: expected a state from 0 to 15, found the end of the line"),
    (4, "edge from 0 tag 300 known 1 to 0", "line 4: expected a tag from 0 to 31, found `300`"),
    (4, "edge from 0 tag +3 known 1 to 0", "line 4: expected a tag from 0 to 31, found `+3`"),
    (4, "vertex from 0", "line 4: expected `right`, `state` or `edge`, found `vertex`"),
    (4, "pair left 1 right 1", "line 4: expected `right`, `state` or `edge`, found `pair`"),
    (4, "left registers 1 start 0", "line 4: expected `right`, `state` or `edge`, found `left`"),
    (4, "edge from 2 tag 3 known 1 to 0", "REFUSED 6 at line 4: expected a from state from 0 to 1, found 2"),
    (4, "edge from 0 tag 3 known 1 to 2", "REFUSED 6 at line 4: expected a to state from 0 to 1, found 2"),
    (4, "edge from 0 tag 32 known 1 to 0", "REFUSED 6 at line 4: expected a tag from 0 to 31, found 32"),
    (4, "edge from 0 tag 3 known 0 to 0", "REFUSED 6 at line 4: expected a register that exists (the model has 2), found register 0"),
    (4, "edge from 0 tag 3 known 3 to 0", "REFUSED 6 at line 4: expected a register that exists (the model has 2), found register 3"),
    (4, "edge from 0 tag 3 known 2 to 0", "REFUSED 7 at line 4: expected a register that state 0 holds, since the edge is known, found 2"),
    (4, "edge from 0 tag 3 known 1 to 1", "REFUSED 7 at line 4: expected state 1 to hold only what state 0 holds, found register 2"),
    (4, "edge from 0 tag 3 locally fresh 1 to 1", "REFUSED 7 at line 4: expected state 1 to hold only what state 0 holds and what is stored, found register 2"),
    (4, "edge from 0 tag 3 locally fresh 2 to 1", "REFUSED 8 at line 5: expected each edge once, found the edge of line 4 again"),
    (6, "", "line 9: expected `right`, `state` or `edge`, found `pair`"),
    (6, "left registers 2 start 0", "line 6: expected `right`, `state` or `edge`, found `left`"),
    (6, "right registers 2 start 1", "REFUSED 4 at line 6: expected a start state that exists, found 1"),
    (7, "", "REFUSED 4 at line 6: expected 1 to 16 states in this model, found 0"),
    (9, "right registers 2 start 0", "line 9: expected `state`, `edge`, `pair` or `history`, found `right`"),
    (9, "pair 1 2", "line 9: expected `left`, found `1`"),
    (9, "pair left 1 right x", "line 9: expected a register from 1 to 6, found `x`"),
    (9, "pair left 2 right 1", "REFUSED 10 at line 9: expected a register that the left start state holds, found 2"),
    (9, "pair left 1 right 3", "REFUSED 10 at line 9: expected a register that the right start state holds, found 3"),
    (9, "pair left 1 right 1\npair left 1 right 2", "REFUSED 10 at line 10: expected left registers to rise, found 1 after 1"),
    (9, "pair left 1 right 1\nedge from 0 tag 4 known 1 to 0", "line 10: expected `pair` or `history`, found `edge`"),
    (9, "# all is well until here\n\n\u{7}bell", "line 11: expected `state`, `edge`, `pair` or `history`, found `\\u{7}bell`"),
    (4, "history 3", "line 4: expected `right`, `state` or `edge`, found `history`"),
    (9, "history", "line 9: expected a history size from 0 to 13, found the end of the line"),
    (9, "history many", "line 9: expected a history size from 0 to 13, found `many`"),
    (9, "history 256", "line 9: expected a history size from 0 to 13, found `256`"),
    (9, "history 3 numbers", "line 9: expected the end of the line, found `numbers`"),
    (9, "history 14", "REFUSED 15 at line 9: expected a history size from 0 to 13, found 14"),
    (9, "history 2", "REFUSED 15 at line 9: expected a history of at least what the start states hold together, which is 3, found 2"),
    (9, "pair left 1 right 2\nhistory 1", "REFUSED 15 at line 10: expected a history of at least what the start states hold together, which is 2, found 1"),
    (9, "history 3\nhistory 3", "line 10: expected nothing more, found `history`"),
    (9, "history 3\npair left 1 right 2", "line 10: expected nothing more, found `pair`"),
    (9, "history 3\nedge from 0 tag 4 known 1 to 0", "line 10: expected nothing more, found `edge`"),
];

/// Lines that change nothing where they stand in the place of a line.
#[rustfmt::skip]
const SAME_LINES: &[(usize, &str)] = &[
    (1, "# a comment\n\nleft registers 2 start 0 # and another"),
    (2, "\tstate\t0   holds 1 end 0\r"),
    (3, "state 01 holds 2 1 end 1"),
    (4, "edge from 0 tag 3 known 1 to 0#"),
    (9, "pair left 1 right 2\n\n# the end"),
];

fn good() -> Vec<String> {
    GOOD.iter().map(|line| line.to_string()).collect()
}

fn with_line(number: usize, line: &str) -> String {
    let mut lines = good();
    lines[number - 1] = line.into();
    lines.join("\n") + "\n"
}

fn message(text: &[u8]) -> String {
    match text::to_bytes(text) {
        Ok(_) => "no message".into(),
        Err(problem) => problem.to_string(),
    }
}

/// A text whose left model has so many states and so many edges from state 0.
fn large(states: usize, edges: usize) -> String {
    let mut text = String::from("left registers 6 start 0\n");
    for state in 0..states {
        text += &format!("state {state} holds nothing end 0\n");
    }
    for edge in 0..edges {
        let (tag, register) = (edge / 6, edge % 6 + 1);
        text += &format!("edge from 0 tag {tag} locally fresh {register} to 0\n");
    }
    text + "right registers 0 start 0\nstate 0 holds nothing end 0\n"
}

#[rustfmt::skip]
fn wrong_texts() -> Vec<(Vec<u8>, &'static str)> {
    let good = good();
    let long = "x".repeat(100);
    let both = |first: &str, last: &str| format!("{first}\n{last}").into_bytes();
    vec![
        (b"".to_vec(), "line 1: expected `left`, found the end of the text"),
        (b"\n\n# nothing\n".to_vec(), "line 3: expected `left`, found the end of the text"),
        (good[..5].join("\n").into_bytes(), "line 5: expected `right`, `state` or `edge`, found the end of the text"),
        (both(&good[0], "  state 0 holds \u{e9} end 0"), "line 2: expected registers from 1 to 6, or `nothing`, found `\u{e9}`"),
        (b"left registers 2 start 0\n\xff\xfe".to_vec(), "line 2: expected text, found bytes that are none"),
        (long.into_bytes(), "line 1: expected `left`, found `xxxxxxxxxxxxxxxxxxxxxxxxxxxxxxxxxxxxxxxx...`"),
        (large(17, 0).into_bytes(), "REFUSED 4 at line 1: expected 1 to 16 states in this model, found 17"),
        (large(1, 65).into_bytes(), "REFUSED 9 at line 67: expected at most 64 edges in a model, found one more"),
    ]
}

/// The good text and a history line are the bytes of the good text with a record of kind 5 before the end, and back.
fn with_history(size: u8) -> Result<(), String> {
    let written = format!("{}\nhistory {size}\n", GOOD.join("\n"));
    let found = text::to_bytes(written.as_bytes()).map_err(|problem| problem.to_string())?;
    let mut expected = text::to_bytes(GOOD.join("\n").as_bytes()).map_err(|p| p.to_string())?;
    expected.splice(expected.len() - 1.., [5, size, 15]);
    same("the bytes", &found, &expected)?;
    let back = text::from_bytes(&found).map_err(|refusal| refusal.to_string())?;
    same("the text again", back, written)
}

pub fn run(tally: &mut Tally) {
    let good_bytes = text::to_bytes((GOOD.join("\n") + "\n").as_bytes());
    tally.check(
        "the good text",
        good_bytes.clone().map(|_| ()).map_err(|p| p.to_string()),
    );
    for (number, line, expected) in WRONG_LINES {
        let found = message(with_line(*number, line).as_bytes());
        tally.check("a wrong line", same(line, &found[..], expected));
    }
    for (text, expected) in wrong_texts() {
        tally.check(
            "a wrong text",
            same("the message", &message(&text)[..], expected),
        );
    }
    for (number, line) in SAME_LINES {
        let found = text::to_bytes(with_line(*number, line).as_bytes());
        tally.check("another writing", same(line, &found, &good_bytes));
    }
    for size in [2, 3, 12, 13] {
        tally.check("a stated history", with_history(size));
    }
    let mixed = [0, 4, 1, 3, 2, 5, 7, 6, 8].map(|place| GOOD[place]);
    let found = text::to_bytes(mixed.join("\n").as_bytes());
    tally.check("edges in any order", same("the task", &found, &good_bytes));
    let largest = text::to_bytes(large(16, 64).as_bytes()).map(|_| ());
    tally.check(
        "16 states and 64 edges",
        largest.map_err(|problem| problem.to_string()),
    );
}
