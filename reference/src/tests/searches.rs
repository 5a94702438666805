//! The search for replies: which edge is found from a number on, and where
//! it leads. By hand, on the marked cases, on random tasks, with actual
//! numbers and by frames.

use crate::marked::*;
use crate::replies::{frame_of, marked_tasks, reached, Actual};
use crate::runner::{built, family_file};
use crate::whole::tasks;
use crate::Test;
use reference::certificate::LOST_LENGTH;
use reference::compare::solve;
use reference::frames::*;
use reference::game::*;
use reference::generate::families::family;
use reference::generate::questions::about_items;
use reference::generate::{item_of_kind, ItemKind};
use reference::model::*;
use reference::numbers::{NumberSet, Reader};
use reference::random::Random;
use reference::rules::Rules;
use reference::tally::{listed_attacks, reply_sorts, Tally};
use reference::task::{read, write};
use std::fs::File;
use std::process::{Command, Stdio};

pub const TESTS: &[Test] = &[
    ("searches: by hand, every number to look from", by_hand),
    ("searches: by hand, a stated history", small_history),
    ("searches: an attack without side, edge or case has no reply", no_such_attack),
    ("searches: attacks that do not exist, positions that are not legal", out_of_place),
    ("searches: any 13 bytes", any_bytes),
    ("searches: marked cases", marked_cases),
    ("searches: random tasks", random_tasks),
    ("searches: actual numbers, lowest first", actual_numbers),
    ("searches: task refusals come first", refused_tasks),
    ("searches: bytes of a frame, both ways", frame_bytes),
    ("searches: the adapter's answers", adapter_answers),
    ("searches: generated questions", generated_questions),
    ("searches: generated questions about a given task", given_task),
    ("searches: mistaken searches are found by the questions", mistakes),
    ("searches: counts of replies, by hand", counted),
    ("families: forks", forks),
    ("families: every attack of a fork has replies to one position", forked_attacks),
];

const TWO_WAY: Rules = Rules::TWO_WAY;

/// What the frame finds, in a task that is not turned back.
fn found(task: &[u8], question: ReplyQuestion) -> FoundReply {
    match reference_response(&Request::FirstReply { task: task.to_vec(), question }) {
        Response::FirstReply { refusal: 0, found } => found,
        other => panic!("{other:?}"),
    }
}

/// Both readers start in state 1, so that their edges do not begin at 0.
/// Left, register 1 held everywhere, edges 0 and 1 from state 0. From state 1
/// a known edge with tag 0 (2); with tag 1 locally fresh to 0 and 1 (3, 4),
/// globally fresh to 1 (5); with tag 2 globally fresh (6).
/// Right, edges 0 to 2 from state 0, state 2 holds nothing. From state 1 a
/// known edge with tag 0 (3); with tag 1 a known one to 2 (4), locally fresh
/// of register 1 to 1 (5), of registers 2 and 3 to 2 (6, 7), which drop the
/// number, globally fresh of register 2 to 2 (8); with tag 3 locally fresh (9).
fn example() -> Vec<u8> {
    let left = "01 01 02 01  02 00 01 00  02 01 01 00 \
                03 00 00 00 01 00  03 00 01 01 01 01 \
                03 01 00 00 01 01  03 01 01 01 01 00  03 01 01 01 01 01 \
                03 01 01 02 01 01  03 01 02 02 01 01";
    let right = "01 03 03 01  02 00 01 00  02 01 01 00  02 02 00 00 \
                 03 00 00 00 01 00  03 00 01 01 01 00  03 00 01 02 01 00 \
                 03 01 00 00 01 01  03 01 01 00 01 02  03 01 01 01 01 01 \
                 03 01 01 01 02 02  03 01 01 01 03 02  03 01 01 02 02 02 \
                 03 01 03 01 01 01";
    task_of(hex(left), hex(right), &[])
}

/// The start of the example; no register has a partner.
const START: &str = "01 01  00 00 00 00 00 00  0d";

/// The same states, and both registers 1 hold the same number.
const PAIRED: &str = "01 01  01 00 00 00 00 00  0d";

/// Where the right reader drops all that it holds.
const DROPPED: &str = "01 02  00 00 00 00 00 00  0d";
const DROPPED_FROM_0: &str = "00 02  00 00 00 00 00 00  0d";

/// From one number to another: the edge that is found, its to state, and
/// the position.
type Found<'a> = (u8, u8, u32, u32, &'a str);

/// What the frame finds in the example from each of the 256 numbers: none
/// outside of the numbers that are listed.
fn expect(position: &str, attack: &str, wanted: &[Found]) {
    let bytes = |from| [hex(position), hex(attack), vec![from]].concat();
    for from in 0..=255 {
        let question = ReplyQuestion::from_bytes(&bytes(from)).expect("13 bytes");
        let listed = wanted.iter().find(|(low, high, ..)| (*low..=*high).contains(&from));
        let wanted = match listed {
            None => FoundReply::default(),
            Some(&(_, _, edge, to, leads_to)) => {
                FoundReply { found: 1, edge, to, leads_to: hex(leads_to) }
            }
        };
        assert_eq!(found(&example(), question), wanted, "{position}, {attack}, {from}");
    }
}

fn by_hand() {
    // Known: without a partner, and with one.
    expect(START, "01 02 00", &[]);
    expect(PAIRED, "01 02 00", &[(0, 3, 3, 1, PAIRED)]);
    // Locally fresh, case 7 and case 8. Edges 6, 7 and 8 lead to one position.
    let seen = [(0, 5, 5, 1, PAIRED), (6, 6, 6, 2, DROPPED), (7, 7, 7, 2, DROPPED)];
    expect(START, "01 04 07", &seen);
    expect(START, "01 04 08", &[&seen[..], &[(8, 8, 8, 2, DROPPED)]].concat());
    expect(PAIRED, "01 04 07", &seen);
    // A number that the right reader holds.
    expect(START, "01 04 01", &[(0, 4, 4, 2, DROPPED)]);
    // Another to state on the left.
    let paired_in_0 = "00 01  01 00 00 00 00 00  0d";
    let from_0 = [(6, 6, 6, 2, DROPPED_FROM_0), (7, 7, 7, 2, DROPPED_FROM_0)];
    expect(START, "01 03 07", &[&[(0, 5, 5, 1, paired_in_0)][..], &from_0].concat());
    // Globally fresh; and with a tag that the right reader does not have.
    expect(START, "01 05 08", &[&seen[..], &[(8, 8, 8, 2, DROPPED)]].concat());
    expect(START, "01 06 08", &[]);
    // The right side attacks: known without and with a partner.
    let two = [(0, 3, 3, 0, DROPPED_FROM_0), (4, 4, 4, 1, DROPPED)];
    expect(START, "02 03 00", &[]);
    expect(PAIRED, "02 03 00", &[(0, 2, 2, 1, PAIRED)]);
    expect(START, "02 04 00", &two);
    expect(PAIRED, "02 04 00", &[]);
    // Fresh edges. Left edges 4 and 5 lead to one position.
    expect(START, "02 06 01", &[]);
    expect(START, "02 06 07", &two);
    expect(START, "02 06 08", &[&two[..], &[(5, 5, 5, 1, DROPPED)]].concat());
    expect(START, "02 08 08", &[&two[..], &[(5, 5, 5, 1, DROPPED)]].concat());
    expect(START, "02 09 07", &[]);
}

/// Case 8 raises a size below 13 by one, case 7 does not.
fn small_history() {
    let at = |states: &str, size: &str| format!("{states} 00 00 00 00 00 {size}");
    let (four, wrote, dropped) = (at("01 01 00", "04"), at("01 01 01", "05"), at("01 02 00", "05"));
    let all = [
        (0, 5, 5, 1, wrote.as_str()),
        (6, 6, 6, 2, dropped.as_str()),
        (7, 7, 7, 2, dropped.as_str()),
        (8, 8, 8, 2, dropped.as_str()),
    ];
    expect(&four, "01 04 08", &all);
    expect(&four, "01 05 08", &all);
    let (wrote, dropped) = (at("01 01 01", "04"), at("01 02 00", "04"));
    let (wrote, dropped) = (wrote.as_str(), dropped.as_str());
    expect(&four, "01 04 07", &[(0, 5, 5, 1, wrote), (6, 6, 6, 2, dropped), (7, 7, 7, 2, dropped)]);
}

fn no_such_attack() {
    for side in ["00", "03", "ff"] {
        expect(START, &[side, " 04 07"].concat(), &[]);
    }
    for edge in ["07", "40", "ff"] {
        expect(START, &["01 ", edge, " 08"].concat(), &[]);
    }
    expect(START, "02 0a 08", &[]);
    for case in ["09", "0f", "ff"] {
        expect(START, &["01 04 ", case].concat(), &[]);
    }
}

/// Edge numbers and to states that are found in the example from 0 on; what
/// the position is then is no matter.
fn expect_numbers(position: &str, attack: &str, wanted: &[(u32, u32)]) {
    let mut list = Vec::new();
    let mut from = 0;
    loop {
        let bytes = [hex(position), hex(attack), vec![from]].concat();
        let reply = found(&example(), ReplyQuestion::from_bytes(&bytes).expect("13 bytes"));
        if reply == FoundReply::default() {
            break;
        }
        assert_eq!((reply.found, reply.leads_to.len()), (1, 9));
        list.push((reply.edge, reply.to));
        from = reply.edge as u8 + 1;
    }
    assert_eq!(list, wanted, "{position}, {attack}");
}

fn out_of_place() {
    // Edges that start in another state, and cases that they do not have.
    expect_numbers(START, "02 01 07", &[(3, 0), (4, 1)]);
    expect_numbers(START, "01 01 08", &[(5, 1), (6, 2), (7, 2), (8, 2)]);
    expect_numbers(START, "01 05 07", &[(5, 1), (6, 2), (7, 2)]);
    expect_numbers(PAIRED, "01 04 01", &[(4, 2)]);
    expect_numbers(START, "01 05 00", &[(5, 1), (6, 2), (7, 2)]);
    expect_numbers(START, "01 04 06", &[]);
    // States that do not exist.
    expect_numbers("09 01  00 00 00 00 00 00  0d", "01 04 07", &[(5, 1), (6, 2), (7, 2)]);
    expect_numbers("01 03  00 00 00 00 00 00  0d", "01 04 07", &[]);
    expect_numbers("ff ff  ff ff ff ff ff ff  ff", "01 04 08", &[]);
    // Partners that are no registers, and one register for all.
    expect_numbers("01 01  ff 09 08 07 06 00  0d", "01 04 08", &[(5, 1), (6, 2), (7, 2), (8, 2)]);
    expect_numbers("01 01  01 01 01 01 01 01  0d", "01 02 00", &[(3, 1)]);
    expect_numbers("01 01  00 00 00 00 00 01  0d", "02 04 00", &[]);
    // Sizes below the numbers held and above 13.
    for size in ["00", "01", "0e", "fe", "ff"] {
        let position = ["01 01  00 00 00 00 00 00 ", size].concat();
        expect_numbers(&position, "01 04 08", &[(5, 1), (6, 2), (7, 2), (8, 2)]);
        expect_numbers(&position, "02 06 07", &[(3, 0), (4, 1)]);
    }
}

/// A reached position, an attack and a number that often exist, and then up
/// to three bytes that can have any value.
fn some_question(random: &mut Random, positions: &[Position]) -> ReplyQuestion {
    let attack = [random.between(1, 2), random.below(8), random.below(9), random.below(6)];
    let position = random.pick(positions).bytes();
    let mut bytes = [&position[..], &attack.map(|n| n as u8)].concat();
    for _ in 0..random.below(4) {
        let any = random.byte();
        bytes[random.below(13)] = *random.pick(&[0, 1, 7, 254, 255, any]);
    }
    ReplyQuestion::from_bytes(&bytes).expect("13 bytes")
}

/// Whatever is asked, the edge and its to state are right, the round leads to
/// states that exist, and the size is what the case makes of it, up to 13.
fn any_bytes() {
    let mut random = Random::new(150);
    let mut seen = Tally::default();
    for task in tasks(150, 1500) {
        let positions = reached(&task);
        for _ in 0..100 {
            let question = some_question(&mut random, &positions);
            seen.add(assert_sound(&task, &question));
        }
    }
    print!("{}", seen.table());
    for what in ["no attack", "none", "found, legal", "found, not legal", "found, size 255"] {
        assert!(seen.get(what) >= 20, "{what}");
    }
}

fn assert_sound(task: &Task, question: &ReplyQuestion) -> &'static str {
    let reply = question.first(task);
    let Some(attack) = named_attack(task, question.attack) else {
        assert_eq!(reply, FoundReply::default());
        return "no attack";
    };
    let (from, other) = (question.edge, attack.side.other());
    let is_one = |&number: &u8| is_reply(task, &question.position, attack, number);
    let Some(edge) = (from..=255).find(is_one) else {
        assert_eq!(reply, FoundReply::default());
        return "none";
    };
    let to_of = |side: Side, edge: u8| task.model(side).edges[edge as usize].to;
    assert_eq!((reply.found, reply.edge), (1, edge as u32));
    assert_eq!(reply.to, to_of(other, edge) as u32);
    let next = Position::from_bytes(&reply.leads_to);
    assert_eq!(next.state(other), to_of(other, edge));
    assert_eq!(next.state(attack.side), to_of(attack.side, attack.edge));
    let size = question.position.history;
    let raised = if attack.case == 8 { (size as u32 + 1).min(13) } else { size as u32 };
    assert_eq!(next.history as u32, raised);
    match (question.position.is_legal(task), size) {
        (true, _) => "found, legal",
        (false, 255) => "found, size 255",
        (false, _) => "found, not legal",
    }
}

/// The search against the plain list of edges that are replies, from every
/// number up to 70 and from 255; and the list of all replies against both.
fn assert_searched(seen: &mut Tally, task: &Task, position: &Position, attack: Attack) {
    let plain: Vec<u8> = (0..=255).filter(|&n| is_reply(task, position, attack, n)).collect();
    let search = |from: u8| first_reply(task, position, attack, from);
    for from in (0..=70).chain([255]) {
        let least = plain.iter().copied().filter(|&n| n >= from).min();
        assert_eq!(search(from).map(|r| r.edge), least, "{position:?} {attack:?} {from}");
    }
    let list = replies(task, position, attack);
    let numbers: Vec<u8> = list.iter().map(|r| r.edge).collect();
    assert_eq!(numbers, plain);
    assert!(list.is_sorted_by(|a, b| a.edge < b.edge));
    // Edges rise, so the replies to an attack stand together.
    assert!(numbers.windows(2).all(|two| two[0] + 1 == two[1]));
    assert!(list.iter().all(|reply| search(reply.edge) == Some(*reply)));
    seen.add(if list.is_empty() { "none" } else { "some" });
    reply_sorts(&list).into_iter().for_each(|sort| seen.add(sort));
}

fn assert_all_searched(seen: &mut Tally, task: &Task) {
    for position in reached(task).iter().take(40) {
        for attack in attacks(TWO_WAY, task, position) {
            assert_searched(seen, task, position, attack);
        }
    }
}

fn marked_cases() {
    let mut seen = Tally::default();
    for bytes in marked_tasks() {
        assert_all_searched(&mut seen, &read(&bytes).expect("a valid task"));
    }
    assert_all_searched(&mut seen, &read(&example()).expect("a valid task"));
    print!("{}", seen.table());
    // Case 11 by hand: from both states 1 the replies begin at edge 2.
    let task = task_11();
    let position = Position::from_bytes(&hex("01 01  01 00 00 00 00 00  0d"));
    for from in 0..=255 {
        let question = ReplyQuestion { position, attack: [1, 1, 0], edge: from };
        let reply = found(&task, question);
        let wanted = if from <= 2 { (1, 2, 3) } else { (0, 0, 0) };
        assert_eq!((reply.found, reply.edge, reply.to), wanted, "{from}");
    }
}

fn random_tasks() {
    let mut seen = Tally::default();
    for task in tasks(151, 2000) {
        assert_all_searched(&mut seen, &task);
    }
    print!("{}", seen.table());
    for what in ["none", "some", "first-above-0", "to-one-position", "several"] {
        assert!(seen.get(what) >= 1000, "{what}");
    }
}

/// The position of two readers with actual numbers.
fn position_of(left: &Reader, right: &Reader, history: NumberSet) -> Position {
    let partner = |held: Option<u8>| {
        let place = held.and_then(|n| right.registers.iter().position(|&r| r == Some(n)));
        place.map_or(0, |place| place as u8 + 1)
    };
    let partners = left.registers.map(partner);
    let size = history.0.count_ones().min(13) as u8;
    Position { left: left.state, right: right.state, partners, history: size }
}

/// All edges of the other side that take the attack's number, lowest first,
/// with where the readers then are.
fn taken(task: &Task, position: &Position, attack: Attack) -> Vec<Reply> {
    let actual = Actual::of(task, position);
    let (side, other) = (attack.side, attack.side.other());
    let edge = &task.model(side).edges[attack.edge as usize];
    let number = actual.number(attack, edge);
    let (attacker, replier) = (actual.reader(side), actual.reader(other));
    let mut history = actual.history;
    history.insert(number);
    let mut list = Vec::new();
    for (place, reply) in task.model(other).edges.iter().enumerate() {
        let meets = reply.from == replier.state && reply.tag == edge.tag;
        if meets && replier.takes(reply, number, actual.history) {
            let moved = attacker.moved(task.model(side), edge, number);
            let replied = replier.moved(task.model(other), reply, number);
            let leads_to = match side {
                Side::Left => position_of(&moved, &replied, history),
                Side::Right => position_of(&replied, &moved, history),
            };
            list.push(Reply { edge: place as u8, leads_to });
        }
    }
    list
}

fn actual_numbers() {
    let mut seen = Tally::default();
    for task in tasks(152, 2500) {
        for position in reached(&task).iter().take(100) {
            for attack in attacks(TWO_WAY, &task, position) {
                let list = taken(&task, position, attack);
                for from in 0..=65 {
                    let least = list.iter().find(|r| r.edge >= from).copied();
                    assert_eq!(first_reply(&task, position, attack, from), least);
                }
                assert_eq!(replies(&task, position, attack), list);
                reply_sorts(&list).into_iter().for_each(|sort| seen.add(sort));
            }
        }
    }
    print!("{}", seen.table());
    for what in ["first-above-0", "to-one-position", "several"] {
        assert!(seen.get(what) >= 1000, "{what}");
    }
}

/// Number and zeros, whatever is asked.
fn refused_tasks() {
    let mut random = Random::new(153);
    let mut seen = Tally::default();
    for index in 0..1500 {
        let task = item_of_kind(153, index, ItemKind::Damaged).bytes;
        let Err(Refusal(refusal)) = read(&task) else {
            continue;
        };
        let question = ReplyQuestion::from_bytes(&random.bytes(13)).expect("13 bytes");
        let response = reference_response(&Request::FirstReply { task, question });
        assert_eq!(response, Response::FirstReply { refusal, found: FoundReply::default() });
        seen.add(refusal.to_string());
    }
    for refusal in (1..=10).chain([15]) {
        assert!(seen.get(&refusal.to_string()) >= 5, "{refusal}");
    }
}

/// Marked case 11, both readers in state 1, left edge 1 with case 0. The
/// number to look from follows. As in README.md.
const REQUEST: &str = "68 00 00 00  07 \
    52 00 00 00  01 01 03 00  02 00 01 00  02 01 01 00  02 02 01 00 \
                 03 00 00 00 01 01  03 01 01 00 01 02  03 01 02 00 01 02 \
                 01 01 04 00  02 00 01 00  02 01 01 00  02 02 01 00  02 03 01 00 \
                 03 00 00 00 01 01  03 00 00 00 01 02  03 01 01 00 01 03  03 02 02 00 01 03 \
                 04 01 01  0f \
    0d 00 00 00  01 01  01 00 00 00 00 00  0d  01 01 00 ";
const FOUND: &str = "1e 00 00 00  07  00 00 00 00  01 00 00 00  02 00 00 00  03 00 00 00 \
    09 00 00 00  02 03  01 00 00 00 00 00  0d";
const NONE: &str =
    "15 00 00 00  07  00 00 00 00  00 00 00 00  00 00 00 00  00 00 00 00  00 00 00 00";
const REFUSED: &str =
    "15 00 00 00  07  02 00 00 00  00 00 00 00  00 00 00 00  00 00 00 00  00 00 00 00";

fn frame_bytes() {
    let position = Position { left: 1, right: 1, partners: [1, 0, 0, 0, 0, 0], history: 13 };
    let question = |edge| ReplyQuestion { position, attack: [1, 1, 0], edge };
    let leads_to = hex("02 03  01 00 00 00 00 00  0d");
    let second = FoundReply { found: 1, edge: 2, to: 3, leads_to };
    for (from, found, text) in [
        (0, second.clone(), FOUND),
        (2, second, FOUND),
        (3, FoundReply::default(), NONE),
        (255, FoundReply::default(), NONE),
    ] {
        let request = Request::FirstReply { task: task_11(), question: question(from) };
        let wanted = [hex(REQUEST), vec![from]].concat();
        assert_eq!(frame_of(&request.payload()), wanted);
        assert_eq!(Request::from_payload(&wanted[4..]).as_ref(), Some(&request));
        assert_eq!(request.task(), task_11());
        let response = Response::FirstReply { refusal: 0, found };
        assert_eq!(reference_response(&request), response);
        assert_eq!((frame_of(&response.payload()), response.first_byte()), (hex(text), 7));
        assert_eq!(Response::from_payload(&hex(text)[4..]), Some(response));
    }
    let empty = Request::FirstReply { task: Vec::new(), question: question(0) };
    assert_eq!(frame_of(&reference_response(&empty).payload()), hex(REFUSED));
    other_lengths();
}

/// What is cut or has a byte too many is no request and no answer; and the
/// second string has 13 bytes.
fn other_lengths() {
    let request = &[hex(REQUEST), vec![0]].concat()[4..];
    for length in 0..request.len() {
        assert_eq!(Request::from_payload(&request[..length]), None);
    }
    assert_eq!(Request::from_payload(&[request, &[0]].concat()), None);
    for text in [FOUND, NONE] {
        let answer = &hex(text)[4..];
        for length in 0..answer.len() {
            assert_eq!(Response::from_payload(&answer[..length]), None);
        }
        assert_eq!(Response::from_payload(&[answer, &[0]].concat()), None);
    }
    for length in 0..40u8 {
        let string = [vec![length, 0, 0, 0], vec![0; length as usize]].concat();
        let payload = [vec![7, 0, 0, 0, 0], string].concat();
        assert_eq!(Request::from_payload(&payload).is_some(), length == 13, "{length}");
    }
}

/// What the adapter answers to these bytes.
fn answered(name: &str, requests: &[u8]) -> Vec<u8> {
    let file = built(name);
    std::fs::write(&file, requests).expect("a file");
    let output = Command::new(built("reference-adapter"))
        .stdin(File::open(&file).expect("the file"))
        .stderr(Stdio::inherit())
        .output()
        .expect("the adapter runs");
    assert!(output.status.success());
    output.stdout
}

/// Four requests in a row, the last one with a task that is turned back.
fn adapter_answers() {
    let empty = "16 00 00 00  07  00 00 00 00 \
                 0d 00 00 00  01 01  01 00 00 00 00 00  0d  01 01 00  00";
    let asked = |from: u8| [hex(REQUEST), vec![from]].concat();
    let requests = [asked(0), asked(3), asked(2), hex(empty)].concat();
    let wanted = hex(&[FOUND, NONE, FOUND, REFUSED].join(" "));
    assert_eq!(answered("searches.requests", &requests), wanted);
}

/// Exit status, frames and counts of `reference-generate questions`.
fn questions(arguments: &[&str]) -> (Option<i32>, Vec<u8>, Tally) {
    let mut program = Command::new(built("reference-generate"));
    let output = program.arg("questions").args(arguments).output().expect("the generator runs");
    let mut counts = Tally::default();
    for line in String::from_utf8_lossy(&output.stderr).lines() {
        if let Some((count, key)) = line.trim_start().split_once("  ") {
            let count: u64 = count.parse().expect("a count");
            (0..count).for_each(|_| counts.add(key));
        }
    }
    (output.status.code(), output.stdout, counts)
}

/// The payloads of frames in a row.
fn payloads(mut bytes: &[u8]) -> Vec<Vec<u8>> {
    std::iter::from_fn(|| read_frame(&mut bytes).expect("whole frames")).collect()
}

fn request_of(payload: &[u8]) -> (Vec<u8>, ReplyQuestion) {
    match Request::from_payload(payload) {
        Some(Request::FirstReply { task, question }) => (task, question),
        other => panic!("{other:?}"),
    }
}

/// Looks at a question by itself, counts what the generator counts, and gives
/// the edge that is to be found.
fn look_at(seen: &mut Tally, bytes: &[u8], question: &ReplyQuestion) -> Option<u8> {
    let task = read(bytes).expect("a valid task");
    let ReplyQuestion { position, attack, edge: from } = *question;
    assert!(position.is_legal(&task));
    let attack = existing_attack(TWO_WAY, &task, &position, attack).expect("it exists");
    let all = taken(&task, &position, attack);
    let least = all.iter().find(|r| r.edge >= from).map(|r| r.edge);
    seen.add(if least.is_some() { "found" } else { "none" });
    if least.is_some_and(|edge| edge > from) {
        seen.add("found-above-from");
    }
    reply_sorts(&all).into_iter().for_each(|sort| seen.add(sort));
    least
}

/// Asks the adapter all of them, and compares edge by edge. Gives the counts.
fn assert_answered(name: &str, frames: &[u8]) -> Tally {
    let mut seen = Tally::default();
    let (requests, answers) = (payloads(frames), payloads(&answered(name, frames)));
    assert_eq!(requests.len(), answers.len());
    for (request, answer) in requests.iter().zip(&answers) {
        let (task, question) = request_of(request);
        let least = look_at(&mut seen, &task, &question);
        match Response::from_payload(answer) {
            Some(Response::FirstReply { refusal: 0, found }) => {
                assert_eq!(found.found, least.is_some() as u32);
                assert_eq!(found.edge, least.unwrap_or(0) as u32);
            }
            other => panic!("{other:?}"),
        }
    }
    seen
}

const SORTS: [&str; 6] =
    ["found", "none", "first-above-0", "found-above-from", "to-one-position", "several"];

fn generated_questions() {
    let (status, frames, counts) = questions(&["1", "3000"]);
    assert_eq!(status, Some(0));
    assert_eq!(questions(&["1", "3000"]).1, frames);
    assert_ne!(questions(&["2", "3000"]).1, frames);
    // Fewer questions are the first ones.
    assert!(frames.starts_with(&questions(&["1", "100"]).1));
    let requests: Vec<(Vec<u8>, ReplyQuestion)> =
        payloads(&frames).iter().map(|payload| request_of(payload)).collect();
    assert_eq!(requests.len(), 3000);
    let new_tasks = requests.windows(2).filter(|two| two[0].0 != two[1].0).count();
    assert!((200..=300).contains(&new_tasks), "{new_tasks}");
    assert!(requests.iter().all(|(task, _)| task.len() <= 200));
    let seen = assert_answered("questions.requests", &frames);
    print!("{}", counts.table());
    for sort in SORTS {
        assert_eq!(counts.get(sort), seen.get(sort), "{sort}");
        assert!(seen.get(sort) >= 300, "{sort}");
    }
    assert_eq!(seen.get("found") + seen.get("none"), 3000);
    for (key, least) in [
        ("none-left", 300),
        ("found-behind-others", 200),
        ("found-not-its-place", 300),
        ("from-past-the-edges", 300),
    ] {
        assert!(counts.get(key) >= least, "{key}");
    }
    assert!((0..=8).all(|case| counts.get(&format!("case:{case}")) >= 20));
}

/// Every attack of this family has replies, two of them to one position.
fn given_task() {
    let file = family_file(&["forks-late", "4", "2"]);
    let (status, frames, counts) = questions(&["3", "400", &file]);
    assert_eq!(status, Some(0));
    let task = std::fs::read(&file).expect("the file");
    assert!(payloads(&frames).iter().all(|payload| request_of(payload).0 == task));
    let seen = assert_answered("given.requests", &frames);
    for sort in ["first-above-0", "to-one-position", "several"] {
        assert_eq!((counts.get(sort), seen.get(sort)), (400, 400), "{sort}");
    }
    assert!(seen.get("found") >= 100 && seen.get("none") >= 50);
    // No attack, turned back, not there.
    for (name, bytes) in [("idle.task", task_6()), ("cut.task", task[1..].to_vec())] {
        let file = built(name);
        std::fs::write(&file, bytes).expect("a file");
        let (status, frames, _) = questions(&["3", "10", &file.to_string_lossy()]);
        assert_eq!((status, frames), (Some(2), Vec::new()), "{name}");
    }
    assert_eq!(questions(&["3", "10", "no-such.task"]).0, Some(2));
    assert_eq!(questions(&["3", "many"]).0, Some(2));
}

const MISTAKES: usize = 6;

/// A search with one mistake. 0, the place among the edges of the state; 1,
/// the highest number; 2, only what stands behind the number; 3, always from
/// 0 on; 4, none where a lower edge is a reply too; 5, what leads where a
/// lower edge leads is left out.
fn mistaken(mistake: usize, task: &Task, question: &ReplyQuestion) -> Option<u8> {
    let ReplyQuestion { position, attack, edge: from } = *question;
    let attack = existing_attack(TWO_WAY, task, &position, attack).expect("it exists");
    let all = taken(task, &position, attack);
    let left: Vec<u8> = all.iter().map(|r| r.edge).filter(|&n| n >= from).collect();
    let least = left.first().copied();
    let other = attack.side.other();
    let place = |number: u8| {
        let mut edges = task.model(other).edges_from(position.state(other));
        edges.position(|(n, _)| n == number).map(|place| place as u8)
    };
    let is_new = |reply: &Reply| {
        all.iter().all(|other| other.edge >= reply.edge || other.leads_to != reply.leads_to)
    };
    match mistake {
        0 => least.and_then(place),
        1 => left.last().copied(),
        2 => left.into_iter().find(|&n| n > from),
        3 => all.first().map(|r| r.edge),
        4 => least.filter(|&n| n == all[0].edge),
        _ => all.iter().find(|r| r.edge >= from && is_new(r)).map(|r| r.edge),
    }
}

fn mistakes() {
    let mut shown = [0; MISTAKES];
    for request in about_items(5, 2000).requests {
        let (bytes, question) = request_of(&request.payload());
        let task = read(&bytes).expect("a valid task");
        let right = look_at(&mut Tally::default(), &bytes, &question);
        for (mistake, count) in shown.iter_mut().enumerate() {
            *count += (mistaken(mistake, &task, &question) != right) as u32;
        }
    }
    println!("       questions that show a mistake: {shown:?}");
    assert!(shown.iter().all(|&n| n >= 40), "{shown:?}");
}

/// Which of the four counts a task has in a game.
fn counts_of(rules: Rules, task: &Task) -> [u64; 4] {
    let mut tally = Tally::default();
    tally.add_features(task, &solve(rules, task));
    [
        "replies:first-above-0",
        "replies:to-one-position",
        "certificate-replies:first-above-0",
        "certificate-replies:to-one-position",
    ]
    .map(|key| tally.get(key))
}

/// Two readers of two states without registers held; from state 0 a locally
/// fresh edge for each of these registers, which drops the number. The left
/// end mark at the end is the given one; the right reader has so many edges
/// with another tag before the others.
fn droppers(registers: &[u8], end_mark: u8, aside: u8) -> Task {
    let model = |aside: u8| {
        let edge = |tag, kind, register| Edge { from: 0, tag, kind, register, to: 1 };
        let before = (1..=aside).map(|register| edge(0, Kind::GloballyFresh, register));
        let edges = registers.iter().map(|&register| edge(1, Kind::LocallyFresh, register));
        let state = State { set: RegisterSet(0), end_mark: 0 };
        let edges = before.chain(edges).collect();
        Model { registers: 6, start: 0, states: vec![state; 2], edges }
    };
    let (mut left, right) = (model(0), model(aside));
    left.states[1].end_mark = end_mark;
    Task::new(left, right, Vec::new())
}

fn counted() {
    let parsed = |bytes: Vec<u8>| read(&bytes).expect("a valid task");
    for (task, two_way, one_way) in [
        // In the second state of P the reply is edge 1.
        (parsed(task_1()), [1, 0, 0, 0], [1, 0, 0, 0]),
        (parsed(task_5()), [0; 4], [0; 4]),
        // Case 11: only the start's listed attack has replies, from edge 0 on.
        (parsed(task_11()), [1, 0, 0, 0], [1, 0, 0, 0]),
        (droppers(&[1], 0, 0), [0; 4], [0; 4]),
        (droppers(&[1, 2], 0, 0), [0, 1, 0, 0], [0, 1, 0, 0]),
        (droppers(&[1], 1, 0), [0; 4], [0; 4]),
        (droppers(&[1, 2], 1, 0), [0, 1, 0, 1], [0, 1, 0, 1]),
        // Where the right side attacks, an edge with tag 0 has no reply; but
        // the left side's attack comes before it.
        (droppers(&[1], 1, 2), [1, 0, 1, 0], [1, 0, 1, 0]),
        (droppers(&[1, 2], 1, 1), [1, 1, 1, 1], [1, 1, 1, 1]),
        (droppers(&[1, 2], 0, 1), [1, 1, 0, 0], [1, 1, 0, 0]),
    ] {
        assert_eq!(counts_of(Rules::TWO_WAY, &task), two_way, "{task:?}");
        assert_eq!(counts_of(Rules::ONE_WAY, &task), one_way, "{task:?}");
    }
    // Only the right side's attacks have such replies.
    let exchanged = droppers(&[1, 2], 0, 1).exchanged();
    assert_eq!(counts_of(Rules::TWO_WAY, &exchanged), [1, 1, 0, 0]);
    assert_eq!(counts_of(Rules::ONE_WAY, &exchanged), [0, 1, 0, 0]);
    // Each count is one for a task, however many attacks there are.
    let many = family("forks-late", &[5, 2]).expect("a family");
    assert_eq!(counts_of(Rules::TWO_WAY, &many), [1; 4]);
}

/// Both families in both games, with the positions that are reached.
fn assert_fork(states: usize, registers: usize, positions: usize) {
    for (name, verdicts, rounds) in [
        ("forks", [Verdict::Equal, Verdict::Follows], 0),
        ("forks-late", [Verdict::Differ, Verdict::FallsShort], states - 1),
    ] {
        let task = family(name, &[states, registers]).expect("a family");
        for (rules, verdict) in Rules::ALL.into_iter().zip(verdicts) {
            let solution = solve(rules, &task);
            let figures = (solution.verdict, solution.entries.len(), solution.rounds as usize);
            assert_eq!(figures, (verdict, positions, rounds), "{name} {states} {registers}");
        }
    }
}

fn forks() {
    for states in 2..=15 {
        for (registers, positions) in [states, 2 * states - 1, 7 * states - 8].iter().enumerate() {
            assert_fork(states, registers, *positions);
        }
    }
    for (states, registers, positions) in
        [(1, 0, 1), (1, 4, 1), (5, 3, 107), (15, 3, 419), (3, 4, 107), (11, 4, 1755), (15, 4, 1197)]
    {
        assert_fork(states, registers, positions);
    }
    for (states, registers) in (1..=15).flat_map(|s| (0..=4).map(move |r| (s, r))) {
        for name in ["forks", "forks-late"] {
            let task = family(name, &[states, registers]).expect("a family");
            assert_eq!(read(&write(&task)).as_ref(), Ok(&task), "{name} {states} {registers}");
        }
    }
    assert!(family("forks", &[16, 1]).is_err() && family("forks", &[0, 1]).is_err());
    assert!(family("forks-late", &[3, 5]).is_err() && family("forks", &[3]).is_err());
}

fn assert_forked(task: &Task, position: &Position, attack: Attack) {
    let list = replies(task, position, attack);
    assert_eq!(reply_sorts(&list), ["first-above-0", "to-one-position", "several"]);
    assert!(list[0].edge >= 2);
}

fn forked_attacks() {
    for sizes in [[2, 0], [4, 1], [6, 2], [4, 3], [3, 4], [15, 1]] {
        let task = family("forks-late", &sizes).expect("a family");
        for position in reached(&task) {
            for attack in attacks(TWO_WAY, &task, &position) {
                assert_forked(&task, &position, attack);
            }
        }
        for rules in Rules::ALL {
            let solution = solve(rules, &task);
            let records = solution.certificate.len() / LOST_LENGTH;
            let listed = listed_attacks(&task, &solution);
            // All but the positions of the last states have an attack.
            assert!(listed.len() >= sizes[0] - 1 && listed.len() < records);
            for (position, attack) in listed {
                assert_forked(&task, &position, attack);
            }
        }
    }
}
