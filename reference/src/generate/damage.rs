//! Damaged byte strings. Each damage is aimed at one refusal; which refusal
//! comes of it is for the reader to say.

use crate::model::*;
use crate::random::Random;
use crate::task::*;

type Records = Vec<Vec<u8>>;

pub fn damaged(random: &mut Random, task: &Task) -> Vec<u8> {
    let mut list = records(task);
    match random.below(16) {
        0 => unknown_kind(random, &mut list),
        1 => return cut(random, &list),
        2 => misplaced(random, &mut list),
        3 => bad_header(random, &mut list),
        4 => bad_state(random, &mut list),
        5 => bad_edge(random, &mut list),
        6 => broken_register_rule(random, &mut list, task),
        7 => edges_out_of_order(random, &mut list),
        8 | 13 => return too_many_edges(random),
        9 => bad_pair(random, &mut list, task),
        10 => after_the_end(random, &mut list),
        11 => two_damages(random, &mut list),
        14 => wrong_history(random, &mut list, task),
        15 => misplaced_history(random, &mut list),
        _ if random.chance(10) => return noise(random),
        _ => return random_bytes_changed(random, list.concat()),
    }
    list.concat()
}

/// The places of the records of one kind.
fn places(list: &Records, kind: u8) -> Vec<usize> {
    (0..list.len()).filter(|&n| list[n][0] == kind).collect()
}

fn unknown_kind(random: &mut Random, list: &mut Records) {
    let place = random.below(list.len());
    let kinds: Vec<u8> = (0..=255).filter(|&k| body_length(k).is_none()).collect();
    list[place][0] = *random.pick(&kinds);
}

/// Cut anywhere, or without its end record.
fn cut(random: &mut Random, list: &Records) -> Vec<u8> {
    let mut bytes = list.concat();
    let length = if random.chance(30) { bytes.len() - 1 } else { random.below(bytes.len()) };
    bytes.truncate(length);
    bytes
}

fn misplaced(random: &mut Random, list: &mut Records) {
    let place = random.below(list.len());
    match random.below(4) {
        0 => {
            list.remove(place);
        }
        1 => {
            let record = list[random.below(list.len())].clone();
            list.insert(place, record);
        }
        2 => {
            let kind = *random.pick(&[HEADER, STATE, EDGE, PAIR, HISTORY, END]);
            let body = random.bytes(body_length(kind).expect("a kind"));
            list.insert(place, record(kind, &body));
        }
        _ => {
            let other = random.below(list.len());
            list.swap(place, other);
        }
    }
}

fn bad_header(random: &mut Random, list: &mut Records) {
    let place = *random.pick(&places(list, HEADER));
    let header = &mut list[place];
    match random.below(4) {
        0 => header[1] = random.between(7, 255) as u8,
        1 => header[2] = *random.pick(&[0, 17, 255]),
        2 => header[3] = header[2],
        _ => header[3] = random.between(header[2] as usize, 255) as u8,
    }
}

fn bad_state(random: &mut Random, list: &mut Records) {
    let place = *random.pick(&places(list, STATE));
    match random.below(4) {
        0 => list[place][1] = list[place][1].wrapping_add(1),
        1 => list[place][1] = random.byte(),
        2 => list[place][2] |= 1 << random.between(5, 7),
        _ => list[place][3] = random.between(2, 255) as u8,
    }
}

fn bad_edge(random: &mut Random, list: &mut Records) {
    let edges = places(list, EDGE);
    if edges.is_empty() {
        return bad_state(random, list);
    }
    let edge = &mut list[*random.pick(&edges)];
    match random.below(5) {
        0 => edge[1] = random.between(16, 255) as u8,
        1 => edge[2] = random.between(32, 255) as u8,
        2 => edge[3] = random.between(3, 255) as u8,
        3 => edge[4] = *random.pick(&[0, 6, 7, 255]),
        _ => edge[5] = random.between(10, 255) as u8,
    }
}

/// One edge is replaced by one that exists but breaks the rule of its kind.
fn broken_register_rule(random: &mut Random, list: &mut Records, task: &Task) {
    let edges = places(list, EDGE);
    for _ in 0..60 {
        if edges.is_empty() {
            break;
        }
        let place = *random.pick(&edges);
        let model = if place < left_record_count(task) { &task.left } else { &task.right };
        let edge = Edge {
            from: random.below(model.states.len()) as u8,
            tag: list[place][2],
            kind: *random.pick(&Kind::ALL),
            register: random.between(1, model.registers as usize) as u8,
            to: random.below(model.states.len()) as u8,
        };
        if !model.keeps_register_rule(&edge) {
            list[place] = record(EDGE, &edge.bytes());
            return;
        }
    }
    bad_edge(random, list);
}

fn left_record_count(task: &Task) -> usize {
    1 + task.left.states.len() + task.left.edges.len()
}

fn edges_out_of_order(random: &mut Random, list: &mut Records) {
    let edges = places(list, EDGE);
    if edges.is_empty() {
        return bad_state(random, list);
    }
    let place = *random.pick(&edges);
    let follows_edge = place > 0 && list[place - 1][0] == EDGE;
    if follows_edge && random.chance(60) {
        list.swap(place - 1, place);
    } else {
        let again = list[place].clone();
        list.insert(place, again);
    }
}

/// One model with 65 edges or more, the other small.
fn too_many_edges(random: &mut Random) -> Vec<u8> {
    let registers = random.between(1, 6) as u8;
    let set = RegisterSet(((1u16 << registers) - 1) as u8);
    let states = vec![State { set, end_mark: 0 }; random.between(1, 4)];
    let mut edges = Vec::new();
    for from in 0..states.len() as u8 {
        for tag in 0..32 {
            for kind in Kind::ALL {
                edges.push(Edge { from, tag, kind, register: registers, to: from });
            }
        }
    }
    random.shuffle(&mut edges);
    edges.truncate(random.between(64, 68));
    edges.sort();
    if random.chance(10) {
        let copy = edges[63];
        edges[64..].fill(copy);
    }
    let large = Model { registers, start: 0, states, edges };
    let small = Model { edges: large.edges[..3].to_vec(), ..large.clone() };
    let (left, right) = if random.chance(50) { (large, small) } else { (small, large) };
    write(&Task::new(left, right, Vec::new()))
}

fn bad_pair(random: &mut Random, list: &mut Records, task: &Task) {
    let end = list.len() - 1 - task.history_record.iter().len();
    let left: Vec<u8> = task.left.start_set().iter().collect();
    let right: Vec<u8> = task.right.start_set().iter().collect();
    let pairs = places(list, PAIR);
    match random.below(3) {
        0 if !pairs.is_empty() => {
            let again = list[*random.pick(&pairs)].clone();
            list.insert(end, again);
        }
        1 if !left.is_empty() && !right.is_empty() => {
            let pair = [*random.pick(&left), *random.pick(&right)];
            list.insert(end, record(PAIR, &pair));
        }
        _ => {
            let pair = [random.below(9) as u8, random.below(9) as u8];
            list.insert(end, record(PAIR, &pair));
        }
    }
}

/// A history's size above 13, or below the numbers held at the start.
fn wrong_history(random: &mut Random, list: &mut Records, task: &Task) {
    list.retain(|record| record[0] != HISTORY);
    let held = task.held_at_start() as usize;
    let size = match random.below(4) {
        0 => MAX_HISTORY as usize + 1,
        1 => random.between(MAX_HISTORY as usize + 1, 255),
        2 if held > 0 => random.below(held),
        _ if held > 0 => held - 1,
        _ => 255,
    };
    list.insert(list.len() - 1, record(HISTORY, &[size as u8]));
}

/// A history record that stands twice, before a pair, after the end, is cut,
/// or stands anywhere. Its size is sometimes wrong besides; where only the
/// end comes after it, all may be right.
fn misplaced_history(random: &mut Random, list: &mut Records) {
    list.retain(|record| record[0] != HISTORY);
    let history = record(HISTORY, &[random.between(8, 15) as u8]);
    let end = list.len() - 1;
    let pairs = places(list, PAIR);
    match random.below(5) {
        0 => {
            list.insert(end, history);
            list.insert(end, record(HISTORY, &[MAX_HISTORY]));
        }
        1 if !pairs.is_empty() => list.insert(*random.pick(&pairs), history),
        2 => list.push(history),
        3 => {
            list.truncate(end);
            list.push(vec![HISTORY]);
        }
        _ => list.insert(random.below(end + 1), history),
    }
}

fn after_the_end(random: &mut Random, list: &mut Records) {
    let any = random.byte();
    let kind = *random.pick(&[HEADER, STATE, EDGE, PAIR, HISTORY, END, any]);
    let body = random.bytes(body_length(kind).unwrap_or(2));
    let mut extra = record(kind, &body);
    if random.chance(40) {
        extra.truncate(random.between(1, extra.len()));
    } else if random.chance(10) {
        extra.resize(random.between(10, 6000), kind);
    }
    list.push(extra);
}

/// Small bytes, so that some of them are kinds.
fn noise(random: &mut Random) -> Vec<u8> {
    let length = random.below(30);
    (0..length).map(|_| random.below(17) as u8).collect()
}

/// Two damages at once show whether the first one in file order counts, and
/// in one record the lowest.
fn two_damages(random: &mut Random, list: &mut Records) {
    for _ in 0..2 {
        match random.below(5) {
            0 => unknown_kind(random, list),
            1 => bad_header_if_any(random, list),
            2 => bad_edge(random, list),
            3 => misplaced(random, list),
            _ => edges_out_of_order(random, list),
        }
    }
}

fn bad_header_if_any(random: &mut Random, list: &mut Records) {
    if !places(list, HEADER).is_empty() {
        bad_header(random, list);
    }
}

fn random_bytes_changed(random: &mut Random, mut bytes: Vec<u8>) -> Vec<u8> {
    for _ in 0..random.between(1, 3) {
        let place = random.below(bytes.len());
        match random.below(4) {
            0 => bytes[place] = random.byte(),
            1 => bytes[place] ^= 1 << random.below(8),
            2 => bytes.insert(place, random.below(16) as u8),
            _ if bytes.len() > 1 => {
                bytes.remove(place);
            }
            _ => {}
        }
    }
    bytes
}
