//! Whether an edge is a reply, asked by frames: by hand, on the marked cases
//! and on random tasks.

use crate::marked::*;
use crate::runner::built;
use crate::whole::tasks;
use crate::Test;
use reference::compare::settle_from;
use reference::frames::*;
use reference::game::*;
use reference::generate::{item_of_kind, ItemKind};
use reference::model::*;
use reference::numbers::{Number, NumberSet, Reader};
use reference::random::Random;
use reference::rules::Rules;
use reference::tally::Tally;
use reference::task::{read, write};
use std::io::Write;
use std::process::{Command, Stdio};

pub const TESTS: &[Test] = &[
    ("replies: by hand, every attack of a position", by_hand),
    ("replies: an edge with another tag is none", other_tag),
    ("replies: an edge from another state is none", other_state),
    ("replies: an edge past the last one is none", past_the_edges),
    ("replies: an edge of the wrong kind is none, case by case", wrong_kind),
    ("replies: a known edge of another register is none", wrong_register),
    ("replies: an attack without side, edge or case has none", no_such_attack),
    ("replies: attacks that do not exist go by their case", attacks_out_of_place),
    ("replies: positions that are not legal", illegal_positions),
    ("replies: marked cases, every edge number", marked_cases),
    ("replies: random tasks, every edge number", random_tasks),
    ("replies: actual numbers", actual_numbers),
    ("replies: no other partner matters", other_partners),
    ("replies: the attack's partner matters", attacks_partner),
    ("replies: task refusals come first", refused_tasks),
    ("replies: bytes of a frame, both ways", frame_bytes),
    ("replies: the adapter's answer", adapter_answers),
];

const TWO_WAY: Rules = Rules::TWO_WAY;

/// The frame's answer to a task that is not turned back.
fn asked(task: &[u8], question: ReplyQuestion) -> bool {
    let request = Request::Reply { task: task.to_vec(), question };
    match reference_response(&request) {
        Response::Reply { refusal: 0, answer } if answer <= 1 => answer == 1,
        other => panic!("{other:?}"),
    }
}

/// All edge numbers that get a 1.
fn replying(task: &[u8], position: Position, attack: [u8; 3]) -> Vec<u8> {
    (0..=255).filter(|&edge| asked(task, ReplyQuestion { position, attack, edge })).collect()
}

/// One state on the left, two on the right. Left edges, all with tag 0:
/// known of 1 (0), known of 2 (1), locally fresh (2), globally fresh (3).
/// Right edges: from state 0 with tag 0, known of 1, 2 and 3 (0, 1, 2),
/// locally fresh (3), globally fresh (4); from state 0 with tag 1, known of
/// 1 and 2 (5, 6), locally fresh (7), globally fresh (8); from state 1 with
/// tag 0, known of 1 and 2 (9, 10), locally fresh (11), globally fresh (12).
fn example() -> Vec<u8> {
    let left = "01 02 01 00  02 00 03 00 \
                03 00 00 00 01 00  03 00 00 00 02 00  03 00 00 01 01 00  03 00 00 02 01 00";
    let right = "01 03 02 00  02 00 07 00  02 01 07 00 \
                 03 00 00 00 01 00  03 00 00 00 02 00  03 00 00 00 03 00 \
                 03 00 00 01 01 00  03 00 00 02 01 00 \
                 03 00 01 00 01 00  03 00 01 00 02 00  03 00 01 01 01 00  03 00 01 02 01 00 \
                 03 01 00 00 01 00  03 01 00 00 02 00  03 01 00 01 01 00  03 01 00 02 01 00";
    task_of(hex(left), hex(right), &[[1, 2]])
}

/// The start of the example: right register 2 is the partner of left
/// register 1, no other register has one.
const START: &str = "00 00  02 00 00 00 00 00  0d";

/// The same with the right reader in state 1.
const LATER: &str = "00 01  02 00 00 00 00 00  0d";

/// The edges that reply in the example.
fn expect(position: &str, attack: &str, wanted: &[u8]) {
    let bytes = hex(attack);
    let list =
        replying(&example(), Position::from_bytes(&hex(position)), [bytes[0], bytes[1], bytes[2]]);
    assert_eq!(list, wanted, "{position}, {attack}");
}

/// One edge that replies in the example, and some that do not.
fn expect_not(position: &str, attack: &str, reply: u8, others: &[u8]) {
    let bytes = |edge: u8| [hex(position), hex(attack), vec![edge]].concat();
    let asked = |edge| {
        let question = ReplyQuestion::from_bytes(&bytes(edge)).expect("13 bytes");
        asked(&example(), question)
    };
    assert!(asked(reply), "{position}, {attack}, {reply}");
    for &edge in others {
        assert!(!asked(edge), "{position}, {attack}, {edge}");
    }
}

fn by_hand() {
    // Known, with and without a partner.
    expect(START, "01 00 00", &[1]);
    expect(START, "01 01 00", &[3]);
    // Locally fresh: right registers 1 and 3 have no partner.
    expect(START, "01 02 01", &[0]);
    expect(START, "01 02 03", &[2]);
    expect(START, "01 02 07", &[3]);
    expect(START, "01 02 08", &[3, 4]);
    // Globally fresh.
    expect(START, "01 03 08", &[3, 4]);
    // The right side: known with a partner, and without.
    expect(START, "02 01 00", &[0]);
    expect(START, "02 00 00", &[2]);
    expect(START, "02 02 00", &[2]);
    // Left register 2 has no partner.
    expect(START, "02 03 02", &[1]);
    expect(START, "02 03 07", &[2]);
    expect(START, "02 03 08", &[2, 3]);
    expect(START, "02 04 08", &[2, 3]);
    // No left edge has tag 1.
    for attack in ["02 05 00", "02 06 00", "02 07 02", "02 07 07", "02 07 08", "02 08 08"] {
        expect(START, attack, &[]);
    }
    // From state 1 there is no known edge of right register 3.
    expect(LATER, "01 00 00", &[10]);
    expect(LATER, "01 01 00", &[11]);
    expect(LATER, "01 02 01", &[9]);
    expect(LATER, "01 02 03", &[]);
    expect(LATER, "01 02 07", &[11]);
    expect(LATER, "01 03 08", &[11, 12]);
}

fn other_tag() {
    expect_not(START, "01 00 00", 1, &[6]);
    expect_not(START, "01 01 00", 3, &[7]);
    expect_not(START, "01 02 01", 0, &[5]);
    expect_not(START, "01 02 07", 3, &[7]);
    expect_not(START, "01 03 08", 4, &[7, 8]);
}

fn other_state() {
    expect_not(START, "01 00 00", 1, &[10]);
    expect_not(START, "01 01 00", 3, &[11]);
    expect_not(START, "01 02 01", 0, &[9]);
    expect_not(START, "01 03 08", 4, &[11, 12]);
    expect_not(LATER, "01 00 00", 10, &[1]);
    expect_not(LATER, "01 03 08", 12, &[3, 4]);
}

/// The right model has 13 edges, the left one 4.
fn past_the_edges() {
    expect_not(START, "01 03 08", 4, &[13, 14, 63, 64, 65, 128, 255]);
    expect_not(START, "02 04 08", 3, &[4, 5, 63, 64, 65, 128, 255]);
}

fn wrong_kind() {
    // Case 0 with a partner: a fresh edge does not take what is held.
    expect_not(START, "01 00 00", 1, &[3, 4]);
    // Case 0 without a partner: nor a known edge what is not held, nor a
    // globally fresh one what was seen.
    expect_not(START, "01 01 00", 3, &[0, 1, 2, 4]);
    // Cases 1 to 6.
    expect_not(START, "01 02 01", 0, &[3, 4]);
    expect_not(START, "02 03 02", 1, &[2, 3]);
    // Case 7.
    expect_not(START, "01 02 07", 3, &[0, 1, 2, 4]);
    // Case 8, of a locally and of a globally fresh edge.
    expect_not(START, "01 02 08", 3, &[0, 1, 2]);
    expect_not(START, "01 03 08", 4, &[0, 1, 2]);
}

fn wrong_register() {
    // The partner of left register 1 is 2.
    expect_not(START, "01 00 00", 1, &[0, 2]);
    // The partner of right register 2 is 1.
    expect_not(START, "02 01 00", 0, &[1]);
    // Case 1 names right register 1, case 3 right register 3.
    expect_not(START, "01 02 01", 0, &[1, 2]);
    expect_not(START, "01 02 03", 2, &[0, 1]);
    expect_not(START, "02 03 02", 1, &[0]);
}

fn no_such_attack() {
    for side in ["00", "03", "ff"] {
        expect(START, &[side, " 00 00"].concat(), &[]);
        expect(START, &[side, " 03 08"].concat(), &[]);
    }
    for edge in ["04", "40", "ff"] {
        expect(START, &["01 ", edge, " 00"].concat(), &[]);
        expect(START, &["01 ", edge, " 08"].concat(), &[]);
    }
    expect(START, "02 0d 08", &[]);
    for case in ["09", "0f", "ff"] {
        expect(START, &["01 00 ", case].concat(), &[]);
        expect(START, &["01 02 ", case].concat(), &[]);
    }
}

fn attacks_out_of_place() {
    // The right edges 10 and 12 start in state 1.
    expect(START, "02 0a 00", &[0]);
    expect(START, "02 0c 08", &[2, 3]);
    // Right register 2 has a partner, 4 to 6 are in no set.
    expect(START, "01 02 02", &[1]);
    expect(START, "01 02 04", &[]);
    expect(START, "01 02 06", &[]);
    // Cases that this kind of edge does not have.
    expect(START, "01 00 03", &[2]);
    expect(START, "01 00 07", &[3]);
    expect(START, "01 00 08", &[3, 4]);
    expect(START, "01 02 00", &[1]);
    expect(START, "01 03 00", &[1]);
    expect(START, "01 03 01", &[0]);
    expect(START, "01 03 07", &[3]);
    // Four numbers are held, so there is no case 7 with a size of 4.
    expect("00 00  02 00 00 00 00 00  04", "01 02 07", &[3]);
}

fn illegal_positions() {
    // The attacker's state does not exist, or the other side's.
    expect("05 00  02 00 00 00 00 00  0d", "01 00 00", &[1]);
    expect("00 02  02 00 00 00 00 00  0d", "01 00 00", &[]);
    expect("00 ff  02 00 00 00 00 00  0d", "01 03 08", &[]);
    // A partner that is no register is still a partner.
    for partner in ["04", "06", "07", "ff"] {
        expect(&["00 00 ", partner, " 00 00 00 00 00  0d"].concat(), "01 00 00", &[]);
    }
    // A left register outside the set has the partner.
    expect("00 00  00 00 00 00 00 02  0d", "02 01 00", &[]);
    // Two left registers have the same partner: the lower one counts.
    expect("00 00  02 02 00 00 00 00  0d", "02 01 00", &[0]);
    expect("00 00  00 02 02 02 02 02  0d", "02 01 00", &[1]);
    expect("00 00  02 02 00 00 00 00  0d", "01 01 00", &[1]);
    // Sizes below the numbers held and above 13.
    for size in ["00", "03", "0e", "ff"] {
        let position = ["00 00  02 00 00 00 00 00 ", size].concat();
        expect(&position, "01 00 00", &[1]);
        expect(&position, "01 02 07", &[3]);
        expect(&position, "01 02 08", &[3, 4]);
    }
}

pub fn reached(task: &Task) -> Vec<Position> {
    let entries = settle_from(TWO_WAY, task, &[Position::start(task)]);
    entries.into_iter().map(|(position, _)| position).collect()
}

fn attack_bytes(attack: Attack) -> [u8; 3] {
    [attack.side.number(), attack.edge, attack.case]
}

/// The frame's answer is 1 for exactly the edges that are listed as replies,
/// for every attack of every position reached and every edge number. Both go
/// by the same function; actual numbers, further down, do not.
fn assert_as_listed(seen: &mut Tally, bytes: &[u8]) {
    let task = read(bytes).expect("a valid task");
    for position in reached(&task) {
        for attack in attacks(TWO_WAY, &task, &position) {
            let listed: Vec<u8> =
                replies(&task, &position, attack).iter().map(|r| r.edge).collect();
            assert_eq!(replying(bytes, position, attack_bytes(attack)), listed, "{attack:?}");
            let word = if listed.is_empty() { "without" } else { "with" };
            seen.add(format!("case {}, {word} a reply", attack.case));
        }
    }
}

/// Cases 7 and 8 are files that are turned back, 9 and 10 have the task of
/// case 1.
pub fn marked_tasks() -> [Vec<u8>; 8] {
    let stated = stating(task_2(), 0);
    [task_1(), task_2(), stated, task_3(), task_4(), task_5(), task_6(), task_11()]
}

fn marked_cases() {
    let mut seen = Tally::default();
    for task in marked_tasks() {
        assert_as_listed(&mut seen, &task);
    }
    print!("{}", seen.table());
    // Some of them by hand.
    let start = "00 00  00 00 00 00 00 00  0d";
    let paired = "00 00  01 00 00 00 00 00  0d";
    for (task, position, attack, wanted) in [
        (task_2(), start, [1, 0, 7], &[][..]),
        (task_2(), start, [1, 0, 8], &[0]),
        (task_2(), start, [2, 0, 8], &[0]),
        (task_4(), start, [1, 0, 0], &[]),
        (task_5(), paired, [1, 0, 0], &[0]),
        (task_11(), paired, [1, 0, 0], &[0, 1]),
        (task_11(), paired, [2, 1, 0], &[0]),
        (task_11(), "01 01  01 00 00 00 00 00  0d", [1, 1, 0], &[2]),
        (task_11(), "01 01  01 00 00 00 00 00  0d", [1, 2, 0], &[]),
        (task_11(), "01 02  01 00 00 00 00 00  0d", [1, 1, 0], &[]),
        (task_11(), "01 02  01 00 00 00 00 00  0d", [1, 2, 0], &[3]),
    ] {
        let list = replying(&task, Position::from_bytes(&hex(position)), attack);
        assert_eq!(list, wanted, "{position}, {attack:?}");
    }
}

fn random_tasks() {
    let mut seen = Tally::default();
    for task in tasks(120, 600).filter(|task| reached(task).len() <= 12) {
        assert_as_listed(&mut seen, &write(&task));
    }
    print!("{}", seen.table());
    for case in 0..=8 {
        assert!(seen.get(&format!("case {case}, with a reply")) >= 5, "{case}");
        assert!(seen.get(&format!("case {case}, without a reply")) >= 5, "{case}");
    }
}

/// Readers with actual numbers in a legal position: the numbers held are the
/// lowest ones, and all below the history's size were seen.
pub struct Actual {
    left: Reader,
    right: Reader,
    pub history: NumberSet,
    size: Number,
}

impl Actual {
    pub fn of(task: &Task, position: &Position) -> Actual {
        let mut numbers = 0..;
        let mut left = Reader { state: position.left, registers: [None; MAX_REGISTERS] };
        let mut right = Reader { state: position.right, registers: [None; MAX_REGISTERS] };
        for register in task.left.set(position.left).iter() {
            left.registers[register as usize - 1] = numbers.next();
        }
        for register in task.right.set(position.right).iter() {
            let place = position.partners.iter().position(|&p| p == register);
            let shared = place.and_then(|place| left.registers[place]);
            right.registers[register as usize - 1] = shared.or_else(|| numbers.next());
        }
        let mut history = NumberSet::default();
        (0..position.history).for_each(|number| history.insert(number));
        Actual { left, right, history, size: position.history }
    }

    pub fn reader(&self, side: Side) -> &Reader {
        match side {
            Side::Left => &self.left,
            Side::Right => &self.right,
        }
    }

    /// The number that the attack is made with.
    pub fn number(&self, attack: Attack, edge: &Edge) -> Number {
        let held = |side, register: u8| self.reader(side).registers[register as usize - 1];
        let number = match attack.case {
            0 => held(attack.side, edge.register),
            7 => Some(self.size - 1),
            8 => Some(self.size),
            j => held(attack.side.other(), j),
        };
        number.expect("the attack exists")
    }
}

/// With actual numbers a reply is an edge from the other side's state that
/// has the attack's tag and takes the same number.
fn assert_takes(seen: &mut Tally, task: &Task, position: &Position, attack: Attack) {
    let actual = Actual::of(task, position);
    let edge = &task.model(attack.side).edges[attack.edge as usize];
    let number = actual.number(attack, edge);
    assert!(actual.reader(attack.side).takes(edge, number, actual.history));
    let other = attack.side.other();
    let replier = actual.reader(other);
    for (place, reply) in task.model(other).edges.iter().enumerate() {
        let meets = reply.from == replier.state && reply.tag == edge.tag;
        let takes = meets && replier.takes(reply, number, actual.history);
        let question =
            ReplyQuestion { position: *position, attack: attack_bytes(attack), edge: place as u8 };
        assert_eq!(question.answer(task), takes, "{question:?}");
        let case = if (1..=6).contains(&attack.case) { 1 } else { attack.case };
        let kinds = [edge, reply].map(|e| e.kind.name()).join("-");
        if meets {
            seen.add(format!("case {case} {kinds} {takes}"));
        }
    }
}

/// Edges from the right state with the right tag are counted, cases 1 to 6
/// as one.
fn actual_numbers() {
    let mut seen = Tally::default();
    for task in tasks(121, 2500) {
        for position in reached(&task).iter().take(300) {
            for attack in attacks(TWO_WAY, &task, position) {
                assert_takes(&mut seen, &task, position, attack);
            }
        }
    }
    print!("{}", seen.table());
    for wanted in [
        "case 0 known-known true",
        "case 0 known-known false",
        "case 0 known-local true",
        "case 0 known-local false",
        "case 0 known-global false",
        "case 1 local-known true",
        "case 1 local-known false",
        "case 1 local-local false",
        "case 1 local-global false",
        "case 7 local-known false",
        "case 7 local-local true",
        "case 7 local-global false",
        "case 8 local-known false",
        "case 8 local-local true",
        "case 8 local-global true",
        "case 8 global-known false",
        "case 8 global-local true",
        "case 8 global-global true",
    ] {
        assert!(seen.get(wanted) >= 500, "{wanted}");
    }
}

/// The answers for every edge number.
fn answers(task: &Task, position: Position, attack: Attack) -> Vec<bool> {
    let attack = attack_bytes(attack);
    (0..=255).map(|edge| ReplyQuestion { position, attack, edge }.answer(task)).collect()
}

/// A byte for a partner, whether or not there is such a register.
fn any_partner(random: &mut Random) -> u8 {
    *random.pick(&[0, 0, 1, 2, 3, 4, 5, 6, 7, 255])
}

/// The position with every partner drawn anew but that of this register.
fn redrawn(random: &mut Random, position: &Position, side: Side, register: u8) -> Position {
    let partner = position.partner(side, register);
    let mut made = *position;
    for left in 1..=6 {
        let decides = match side {
            Side::Left => left == register,
            Side::Right => Some(left) == partner,
        };
        let drawn = any_partner(random);
        let would_decide = side == Side::Right && drawn == register;
        if !decides {
            made.partners[left as usize - 1] = if would_decide { 0 } else { drawn };
        }
    }
    assert_eq!(made.partner(side, register), partner);
    made
}

/// Nor does the history's size matter, nor the attacker's state.
fn other_partners() {
    let mut random = Random::new(122);
    let mut seen = Tally::default();
    for task in tasks(122, 1200) {
        for position in reached(&task).into_iter().take(30) {
            for attack in attacks(TWO_WAY, &task, &position) {
                let wanted = answers(&task, position, attack);
                let register = task.model(attack.side).edges[attack.edge as usize].register;
                let mut made = redrawn(&mut random, &position, attack.side, register);
                made.history = random.byte();
                match attack.side {
                    Side::Left => made.left = random.byte(),
                    Side::Right => made.right = random.byte(),
                }
                assert_eq!(answers(&task, made, attack), wanted, "{position:?} {made:?}");
                if attack.case != 0 {
                    // In the other cases not even that partner matters.
                    made.partners = [0; 6].map(|_| any_partner(&mut random));
                    assert_eq!(answers(&task, made, attack), wanted, "{position:?} {made:?}");
                }
                let partnered = position.partner(attack.side, register).is_some();
                if made.partners != position.partners {
                    let kind = if attack.case == 0 { "known" } else { "fresh" };
                    let side = attack.side.number();
                    seen.add(format!("{kind}, side {side}, partner {partnered}"));
                }
            }
        }
    }
    print!("{}", seen.table());
    for (side, partner) in [(1, true), (1, false), (2, true), (2, false)] {
        let key = format!("known, side {side}, partner {partner}");
        assert!(seen.get(&key) >= 500, "{key}");
    }
}

/// Taking the partner away from the register of a known edge, or giving it
/// one, takes away every reply that there was.
fn attacks_partner() {
    let mut taken_away = [0; 2];
    for task in tasks(123, 1200) {
        for position in reached(&task).into_iter().take(30) {
            for attack in attacks(TWO_WAY, &task, &position) {
                let register = task.model(attack.side).edges[attack.edge as usize].register;
                let before = answers(&task, position, attack);
                if attack.case != 0 || !before.contains(&true) {
                    continue;
                }
                let mut made = position;
                let partner = position.partner(attack.side, register);
                match (attack.side, partner) {
                    (Side::Left, Some(_)) => made.partners[register as usize - 1] = 0,
                    (Side::Left, None) => made.partners[register as usize - 1] = 1,
                    (Side::Right, Some(left)) => made.partners[left as usize - 1] = 0,
                    (Side::Right, None) => made.partners[0] = register,
                }
                let after = answers(&task, made, attack);
                assert!(before.iter().zip(after).all(|(&one, two)| !one || !two));
                taken_away[partner.is_some() as usize] += 1;
            }
        }
    }
    println!("       replies without and with a partner: {taken_away:?}");
    assert!(taken_away.iter().all(|&n| n >= 200), "{taken_away:?}");
}

/// Number and 0, whatever is asked.
fn refused_tasks() {
    let mut random = Random::new(124);
    let mut seen = Tally::default();
    for index in 0..1500 {
        let task = item_of_kind(124, index, ItemKind::Damaged).bytes;
        let Err(Refusal(refusal)) = read(&task) else {
            continue;
        };
        let question = ReplyQuestion::from_bytes(&random.bytes(13)).expect("13 bytes");
        let response = reference_response(&Request::Reply { task, question });
        assert_eq!(response, Response::Reply { refusal, answer: 0 });
        seen.add(refusal.to_string());
    }
    for refusal in (1..=10).chain([15]) {
        assert!(seen.get(&refusal.to_string()) >= 5, "{refusal}");
    }
}

/// Marked case 5, its start, left edge 0 with case 0, right edge 0; then the
/// same with right edge 1, which does not exist. As in README.md.
const REQUEST: &str = "36 00 00 00  06 \
    20 00 00 00  01 01 01 00  02 00 01 00  03 00 00 00 01 00 \
                 01 01 01 00  02 00 01 00  03 00 00 00 01 00  04 01 01  0f \
    0d 00 00 00  00 00  01 00 00 00 00 00  0d  01 00 00 ";
const YES: &str = "09 00 00 00  06  00 00 00 00  01 00 00 00";
const NO: &str = "09 00 00 00  06  00 00 00 00  00 00 00 00";

pub fn frame_of(payload: &[u8]) -> Vec<u8> {
    let mut frame = Vec::new();
    write_frame(&mut frame, payload).expect("a frame");
    frame
}

fn frame_bytes() {
    let position = Position { left: 0, right: 0, partners: [1, 0, 0, 0, 0, 0], history: 13 };
    for (edge, answer, text) in [(0, 1, YES), (1, 0, NO)] {
        let question = ReplyQuestion { position, attack: [1, 0, 0], edge };
        let request = Request::Reply { task: task_5(), question };
        let wanted = [hex(REQUEST), vec![edge]].concat();
        assert_eq!(frame_of(&request.payload()), wanted);
        assert_eq!(Request::from_payload(&wanted[4..]).as_ref(), Some(&request));
        assert_eq!(request.task(), task_5());
        let response = Response::Reply { refusal: 0, answer };
        assert_eq!(reference_response(&request), response);
        assert_eq!((frame_of(&response.payload()), response.first_byte()), (hex(text), 6));
        assert_eq!(Response::from_payload(&hex(text)[4..]), Some(response));
    }
    let empty = Request::Reply {
        task: Vec::new(),
        question: ReplyQuestion { position, attack: [1, 0, 0], edge: 0 },
    };
    let refused = frame_of(&reference_response(&empty).payload());
    assert_eq!(refused, hex("09 00 00 00  06  02 00 00 00  00 00 00 00"));
    other_lengths();
    let mut random = Random::new(125);
    for _ in 0..2000 {
        let bytes = random.bytes(13);
        let question = ReplyQuestion::from_bytes(&bytes).expect("13 bytes");
        assert_eq!(question.bytes()[..], bytes);
        let fields = [&question.position.bytes()[..], &question.attack, &[question.edge]];
        assert_eq!(fields.concat(), bytes);
    }
}

/// What is cut or has a byte too many is no request and no answer; and the
/// second string has 13 bytes.
fn other_lengths() {
    let request = &[hex(REQUEST), vec![0]].concat()[4..];
    let answer = &hex(YES)[4..];
    for length in 0..request.len() {
        assert_eq!(Request::from_payload(&request[..length]), None);
    }
    for length in 0..answer.len() {
        assert_eq!(Response::from_payload(&answer[..length]), None);
    }
    assert_eq!(Request::from_payload(&[request, &[0]].concat()), None);
    assert_eq!(Response::from_payload(&[answer, &[0]].concat()), None);
    for length in 0..40u8 {
        let string = [vec![length, 0, 0, 0], vec![0; length as usize]].concat();
        let payload = [vec![6, 0, 0, 0, 0], string].concat();
        assert_eq!(Request::from_payload(&payload).is_some(), length == 13, "{length}");
    }
}

/// Three requests in a row, the last one with a task that is turned back.
fn adapter_answers() {
    let mut adapter = Command::new(built("reference-adapter"))
        .stdin(Stdio::piped())
        .stdout(Stdio::piped())
        .spawn()
        .expect("the adapter runs");
    let empty = "16 00 00 00  06  00 00 00 00 \
                 0d 00 00 00  00 00  01 00 00 00 00 00  0d  01 00 00  00";
    let requests = [hex(REQUEST), vec![0], hex(REQUEST), vec![1], hex(empty)].concat();
    let mut input = adapter.stdin.take().expect("an input");
    input.write_all(&requests).expect("all is written");
    drop(input);
    let output = adapter.wait_with_output().expect("an end");
    assert!(output.status.success());
    let refused = "09 00 00 00  06  02 00 00 00  00 00 00 00";
    assert_eq!(output.stdout, hex(&[YES, NO, refused].join(" ")));
}
