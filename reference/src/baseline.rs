//! The heap baseline for measurements: a HashMap from packed positions to
//! dense numbers, and a predecessor work list for the rounds.
//!
//! It shares the data types with the rest and the writer of certificates;
//! positions, attacks and replies are its own, made for speed:
//!
//! - A position is 30 bits: two states of 4 bits, six partners of 3 bits,
//!   the history's size of 4 bits, in the order of the position bytes, so
//!   packed order is byte order.
//! - The round "left attacks with e, right replies with f" and the round
//!   "right attacks with f, left replies with e" lead to the same position.
//!   So positions are made once for every such couple of edges, and which
//!   sides attack makes no difference to the positions that are reached.
//! - With a history of 13, case 7 of a locally fresh edge has the same
//!   replies as case 8 or fewer, and they lead to the same positions. So
//!   case 8 adds positions, but never rounds. Below 13 case 8 raises the
//!   size, and both cases are attacks of their own.
//! - A position that has an attack without reply is lost in 1 round (or 0);
//!   it needs no place in the predecessor lists.

use crate::compare::{Solution, NEVER_LOST};
use crate::game::Position;
use crate::model::*;
use crate::rules::Rules;
use std::collections::HashMap;
use std::hash::{BuildHasherDefault, Hasher};

/// One multiplication, folded; enough for keys that are packed positions.
#[derive(Default)]
pub struct FoldHasher(u64);

impl Hasher for FoldHasher {
    fn finish(&self) -> u64 {
        self.0
    }

    fn write(&mut self, bytes: &[u8]) {
        for &byte in bytes {
            self.write_u32(byte as u32);
        }
    }

    fn write_u32(&mut self, key: u32) {
        let wide = (self.0 ^ key as u64 ^ 0x243f_6a88_85a3_08d3) as u128 * 0x9e37_79b9_7f4a_7c15;
        self.0 = (wide >> 64) as u64 ^ wide as u64;
    }
}

type Numbers = HashMap<u32, u32, BuildHasherDefault<FoldHasher>>;

const FIELD: u32 = 7;

/// The history's size stands last in a packed position.
const SIZE: u32 = 15;

/// Where the states stand in a packed position.
const LEFT_STATE: u32 = 26;
const RIGHT_STATE: u32 = 22;

/// Where the partner of a left register stands in a packed position.
fn shift(register: u8) -> u32 {
    4 + 3 * (MAX_REGISTERS as u32 - register as u32)
}

fn pack(position: &Position) -> u32 {
    let states = (position.left as u32) << LEFT_STATE | (position.right as u32) << RIGHT_STATE;
    let fields = (1..=6u8).map(|r| (position.partners[r as usize - 1] as u32) << shift(r));
    states | fields.sum::<u32>() | position.history as u32
}

fn unpack(packed: u32) -> Position {
    let mut partners = [0; MAX_REGISTERS];
    for register in 1..=6u8 {
        partners[register as usize - 1] = (packed >> shift(register) & FIELD) as u8;
    }
    Position {
        left: (packed >> LEFT_STATE) as u8,
        right: (packed >> RIGHT_STATE & 15) as u8,
        partners,
        history: (packed & SIZE) as u8,
    }
}

/// An edge as the inner loops want it.
#[derive(Clone, Copy)]
struct Step {
    register: u8,
    to: u8,
    to_set: u8,
    is_global: bool,
}

/// The edges of one side with one tag from one state.
#[derive(Clone, Default)]
struct Bundle {
    known: Vec<Step>,
    /// The locally fresh edges, then the globally fresh ones: a model's edges
    /// are in this order.
    fresh: Vec<Step>,
    /// Registers that have a known edge here.
    known_set: u8,
    local_count: usize,
}

impl Bundle {
    fn is_empty(&self) -> bool {
        self.known.is_empty() && self.fresh.is_empty()
    }

    fn local(&self) -> &[Step] {
        &self.fresh[..self.local_count]
    }
}

fn bundle(model: &Model, state: u8, tag: u8) -> Bundle {
    let mut made = Bundle::default();
    for (_, edge) in model.edges_from(state).filter(|(_, e)| e.tag == tag) {
        let step = Step {
            register: edge.register,
            to: edge.to,
            to_set: model.set(edge.to).0,
            is_global: edge.kind == Kind::GloballyFresh,
        };
        match edge.kind {
            Kind::Known => {
                made.known.push(step);
                made.known_set |= 1 << (edge.register - 1);
            }
            kind => {
                made.fresh.push(step);
                made.local_count += (kind == Kind::LocallyFresh) as usize;
            }
        }
    }
    made
}

/// What two states have to say to each other: one couple of bundles for
/// each tag that either of them uses.
#[derive(Clone, Default)]
struct Encounter {
    tags: Vec<(Bundle, Bundle)>,
    lost_at_once: bool,
    left_set: u8,
    right_set: u8,
}

fn encounter(rules: Rules, task: &Task, left: u8, right: u8) -> Encounter {
    let couples =
        (0..=MAX_TAG).map(|t| (bundle(&task.left, left, t), bundle(&task.right, right, t)));
    Encounter {
        tags: couples.filter(|(l, r)| !l.is_empty() || !r.is_empty()).collect(),
        lost_at_once: rules.loses_at_once(task, left, right),
        left_set: task.left.set(left).0,
        right_set: task.right.set(right).0,
    }
}

/// A matching taken apart: partners both ways (place 0 is unused) and the
/// registers that have one. The history's size comes with it.
struct Matching {
    /// A packed position without its states.
    packed: u32,
    of_left: [u8; 7],
    of_right: [u8; 8],
    left_matched: u8,
    right_matched: u8,
}

impl Matching {
    fn of(packed: u32) -> Matching {
        let mut m = Matching {
            packed: packed & ((1 << RIGHT_STATE) - 1),
            of_left: [0; 7],
            of_right: [0; 8],
            left_matched: 0,
            right_matched: 0,
        };
        for register in 1..=6u8 {
            let partner = (packed >> shift(register) & FIELD) as u8;
            if partner != 0 {
                m.of_left[register as usize] = partner;
                m.of_right[partner as usize] = register;
                m.left_matched |= 1 << (register - 1);
                m.right_matched |= 1 << (partner - 1);
            }
        }
        m
    }

    /// The packed position after a round in which the left reader went by
    /// `left` and the right one by `right`. `fields` has the partners without
    /// those of written registers; the new pair is put in here.
    fn after(&self, left: &Step, right: &Step, mut fields: u32) -> u32 {
        // Registers that the left reader drops.
        let mut dropped = self.left_matched & !left.to_set;
        while dropped != 0 {
            let register = dropped.trailing_zeros() as u8 + 1;
            fields &= !(FIELD << shift(register));
            dropped &= dropped - 1;
        }
        let mut dropped = self.right_matched & !right.to_set;
        while dropped != 0 {
            let register = dropped.trailing_zeros() as usize + 1;
            fields &= !(FIELD << shift(self.of_right[register]));
            dropped &= dropped - 1;
        }
        let both_hold = left.to_set >> (left.register - 1) & right.to_set >> (right.register - 1);
        if both_hold & 1 == 1 {
            let at = shift(left.register);
            fields = fields & !(FIELD << at) | (right.register as u32) << at;
        }
        (left.to as u32) << LEFT_STATE | (right.to as u32) << RIGHT_STATE | fields
    }

    fn history(&self) -> u32 {
        self.packed & SIZE
    }

    /// The numbers that the two readers hold together.
    fn held(&self, here: &Encounter) -> u32 {
        let left_alone = here.left_set & !self.left_matched;
        left_alone.count_ones() + here.right_set.count_ones()
    }

    fn without_left(&self, fields: u32, register: u8) -> u32 {
        fields & !(FIELD << shift(register))
    }

    fn without_right(&self, fields: u32, register: u8) -> u32 {
        match self.of_right[register as usize] {
            0 => fields,
            left => fields & !(FIELD << shift(left)),
        }
    }
}

/// The attacks of one position that have replies, each as the dense numbers
/// of the positions that its replies lead to.
struct Attacks {
    /// Whether the left and the right side attack.
    by_side: [bool; 2],
    targets: Vec<u32>,
    /// Where each attack's targets end.
    ends: Vec<u32>,
    /// The position's rounds are known: it is lost at once, or some attack
    /// has no reply at all.
    decided: bool,
}

impl Attacks {
    fn none(rules: Rules) -> Attacks {
        let by_side = Side::BOTH.map(|side| rules.attacks(side));
        Attacks { by_side, targets: Vec::new(), ends: Vec::new(), decided: false }
    }

    fn clear(&mut self) {
        self.targets.clear();
        self.ends.clear();
        self.decided = false;
    }

    /// An attack that a reply can bring back to where it was decides
    /// nothing, so it is left out; so is one of a side that does not attack.
    fn add(&mut self, own: u32, side: Side, targets: impl Iterator<Item = u32>) {
        if self.decided || !self.by_side[side as usize] {
            return;
        }
        let begin = self.targets.len();
        self.targets.extend(targets);
        let added = &self.targets[begin..];
        if added.is_empty() {
            self.decided = true;
        } else if added.contains(&own) {
            self.targets.truncate(begin);
        } else {
            self.ends.push(self.targets.len() as u32);
        }
    }
}

/// Positions by dense number, and the way back.
struct Reached {
    packed: Vec<u32>,
    numbers: Numbers,
}

impl Reached {
    /// Most positions are met many times, so looking comes before entering.
    #[inline]
    fn number(&mut self, packed: u32) -> u32 {
        if let Some(&number) = self.numbers.get(&packed) {
            return number;
        }
        let number = self.packed.len() as u32;
        self.numbers.insert(packed, number);
        self.packed.push(packed);
        number
    }
}

/// All attacks of all undecided positions, as one flat list.
#[derive(Default)]
struct AttackGraph {
    owners: Vec<u32>,
    /// Where each attack's targets end; they begin where the ones before end.
    ends: Vec<u32>,
    targets: Vec<u32>,
}

impl AttackGraph {
    fn targets_of(&self, attack: usize) -> &[u32] {
        let begin = if attack == 0 { 0 } else { self.ends[attack - 1] as usize };
        &self.targets[begin..self.ends[attack] as usize]
    }
}

struct Explorer<'a> {
    encounters: &'a [Encounter],
    reached: Reached,
    rounds: Vec<u32>,
    graph: AttackGraph,
    attacks: Attacks,
    /// Targets of couples of edges, row by row.
    grid: Vec<u32>,
    /// Column and target of couples of known edges, row by row.
    couples: Vec<(usize, u32)>,
}

impl Explorer<'_> {
    fn run(&mut self, start: u32) {
        self.reached.number(start);
        let mut own = 0;
        while let Some(&packed) = self.reached.packed.get(own as usize) {
            self.expand(own, packed);
            own += 1;
        }
    }

    fn expand(&mut self, own: u32, packed: u32) {
        let encounters = self.encounters;
        let here = &encounters[(packed >> RIGHT_STATE) as usize];
        let matching = Matching::of(packed);
        let left_lone = here.left_set & !matching.left_matched;
        let right_lone = here.right_set & !matching.right_matched;
        let [left_attacks, right_attacks] = self.attacks.by_side;
        let unheard = |(left, right): &(Bundle, Bundle)| {
            right_attacks && right.local_count > 0 && left_lone & !left.known_set != 0
                || left_attacks && left.local_count > 0 && right_lone & !right.known_set != 0
        };
        self.attacks.clear();
        self.attacks.decided = here.lost_at_once || here.tags.iter().any(unheard);
        for (left, right) in &here.tags {
            self.fresh_meets_fresh(own, &matching, matching.held(here), left, right);
            self.known_meets_known(own, &matching, left, right);
            let holder = Holder { side: Side::Left, bundle: left, lone: left_lone };
            self.known_meets_local(own, holder, right, |l, r| {
                matching.after(l, r, matching.without_right(matching.packed, r.register))
            });
            let holder = Holder { side: Side::Right, bundle: right, lone: right_lone };
            self.known_meets_local(own, holder, left, |r, l| {
                matching.after(l, r, matching.without_left(matching.packed, l.register))
            });
        }
        let rounds = match (here.lost_at_once, self.attacks.decided) {
            (true, _) => 0,
            (false, true) => 1,
            (false, false) => NEVER_LOST,
        };
        self.rounds.push(rounds);
        if rounds == NEVER_LOST {
            self.keep_attacks(own);
        }
    }

    fn keep_attacks(&mut self, own: u32) {
        let begin = self.graph.targets.len() as u32;
        for &end in &self.attacks.ends {
            self.graph.owners.push(own);
            self.graph.ends.push(begin + end);
        }
        self.graph.targets.extend_from_slice(&self.attacks.targets);
    }

    /// Packed positions become dense numbers, all in one go, so that the
    /// cache misses can overlap.
    fn number_grid(&mut self) {
        for cell in &mut self.grid {
            *cell = self.reached.number(*cell);
        }
    }

    /// A number that neither reader holds: a new one, which raises the
    /// history's size up to 13, or one that was seen before, if there is one.
    fn fresh_meets_fresh(
        &mut self,
        own: u32,
        m: &Matching,
        held: u32,
        left: &Bundle,
        right: &Bundle,
    ) {
        if m.history() == MAX_HISTORY as u32 {
            let seen_or_new = |attack: &Step, reply: &Step| attack.is_global || !reply.is_global;
            self.fresh_round(own, m, m.packed, [&left.fresh, &right.fresh], seen_or_new);
            return;
        }
        self.fresh_round(own, m, m.packed + 1, [&left.fresh, &right.fresh], |_, _| true);
        if m.history() > held {
            self.fresh_round(own, m, m.packed, [left.local(), right.local()], |_, _| true);
        }
    }

    /// Fresh edges of the left and the right reader that take one number.
    /// `fields` has the matching and the size after the round; `fits` says
    /// whether one edge, attacking, is replied to by another.
    fn fresh_round(
        &mut self,
        own: u32,
        m: &Matching,
        fields: u32,
        [left, right]: [&[Step]; 2],
        fits: impl Fn(&Step, &Step) -> bool,
    ) {
        self.grid.clear();
        for l in left {
            let fields = m.without_left(fields, l.register);
            for r in right {
                self.grid.push(m.after(l, r, m.without_right(fields, r.register)));
            }
        }
        self.number_grid();
        let width = right.len();
        for (row, l) in left.iter().enumerate() {
            let replies = self.grid[row * width..(row + 1) * width].iter().zip(right);
            let fitting = replies.filter(|(_, r)| fits(l, r));
            self.attacks.add(own, Side::Left, fitting.map(|(&target, _)| target));
        }
        for (column, r) in right.iter().enumerate() {
            let replies = self.grid.iter().skip(column).step_by(width).zip(left);
            let fitting = replies.filter(|(_, l)| fits(r, l));
            self.attacks.add(own, Side::Right, fitting.map(|(&target, _)| target));
        }
    }

    /// A number that both readers hold.
    fn known_meets_known(&mut self, own: u32, m: &Matching, left: &Bundle, right: &Bundle) {
        self.couples.clear();
        for l in &left.known {
            let partner = m.of_left[l.register as usize];
            if partner == 0 {
                continue;
            }
            let begin = self.couples.len();
            for (column, r) in right.known.iter().enumerate() {
                if r.register == partner {
                    let target = self.reached.number(m.after(l, r, m.packed));
                    self.couples.push((column, target));
                }
            }
            let found = &self.couples[begin..];
            self.attacks.add(own, Side::Left, found.iter().map(|couple| couple.1));
        }
        for (column, r) in right.known.iter().enumerate() {
            if m.of_right[r.register as usize] != 0 {
                let fitting = self.couples.iter().filter(|couple| couple.0 == column);
                self.attacks.add(own, Side::Right, fitting.map(|couple| couple.1));
            }
        }
    }

    /// A number that only one reader holds: this reader attacks with a known
    /// edge, or the other one with a locally fresh edge. `after` has where
    /// two such edges lead.
    fn known_meets_local(
        &mut self,
        own: u32,
        holder: Holder,
        other: &Bundle,
        after: impl Fn(&Step, &Step) -> u32,
    ) {
        if holder.lone & holder.bundle.known_set == 0 {
            return;
        }
        self.grid.clear();
        for known in holder.lone_known() {
            let local = other.fresh.iter().filter(|step| !step.is_global);
            self.grid.extend(local.map(|local| after(known, local)));
        }
        self.number_grid();
        self.attack_lone_known(own, holder, other.local_count);
    }

    /// The grid has a row for each known edge of a lone register and a column
    /// for each locally fresh edge of the other side. A known edge is replied
    /// to by its whole row; a locally fresh edge that takes the number of a
    /// register, by the rows of this register.
    fn attack_lone_known(&mut self, own: u32, holder: Holder, width: usize) {
        for (row, _) in holder.lone_known().enumerate() {
            let cells = &self.grid[row * width..(row + 1) * width];
            self.attacks.add(own, holder.side, cells.iter().copied());
        }
        let grid = &self.grid;
        for held in registers_of(holder.lone & holder.bundle.known_set) {
            for column in 0..width {
                let rows = holder.lone_known().enumerate();
                let fitting = rows.filter(|(_, step)| step.register == held);
                let targets = fitting.map(|(row, _)| grid[row * width + column]);
                self.attacks.add(own, holder.side.other(), targets);
            }
        }
    }
}

/// One reader, and the registers whose numbers it alone holds.
#[derive(Clone, Copy)]
struct Holder<'a> {
    side: Side,
    bundle: &'a Bundle,
    lone: u8,
}

impl<'a> Holder<'a> {
    /// The known edges of these registers.
    fn lone_known(self) -> impl Iterator<Item = &'a Step> {
        self.bundle.known.iter().filter(move |step| holds(self.lone, step.register))
    }
}

fn holds(set: u8, register: u8) -> bool {
    set >> (register - 1) & 1 == 1
}

fn registers_of(mut set: u8) -> impl Iterator<Item = u8> {
    std::iter::from_fn(move || {
        if set == 0 {
            return None;
        }
        let register = set.trailing_zeros() as u8 + 1;
        set &= set - 1;
        Some(register)
    })
}

const NONE: u32 = u32::MAX;

/// The predecessor lists. Every attack waits at one of the positions that
/// its replies lead to; when that is lost, it moves on to one that is not.
/// So an attack stands in one list only, not in one for each reply.
struct Waiting {
    /// The first attack that waits at a position.
    first: Vec<u32>,
    /// The attack that waits behind an attack.
    next: Vec<u32>,
}

impl Waiting {
    fn new(rounds: &[u32], graph: &AttackGraph) -> Waiting {
        let attacks = graph.owners.len();
        let mut waiting = Waiting { first: vec![NONE; rounds.len()], next: vec![NONE; attacks] };
        for attack in 0..attacks {
            let latest = graph.targets_of(attack).iter().max_by_key(|&&t| rounds[t as usize]);
            waiting.put(attack as u32, *latest.expect("attacks here have replies"));
        }
        waiting
    }

    fn put(&mut self, attack: u32, position: u32) {
        self.next[attack as usize] = self.first[position as usize];
        self.first[position as usize] = attack;
    }
}

/// Works through the lost positions in order of rounds. An attack wins when
/// no reply is left that is not lost; its owner is then lost one round later.
fn settle(rounds: &mut [u32], graph: &AttackGraph) {
    let lost_in = |rounds: &[u32], n: u32| -> Vec<u32> {
        (0..rounds.len() as u32).filter(|&p| rounds[p as usize] == n).collect()
    };
    let mut current = lost_in(rounds, 0);
    let mut next = lost_in(rounds, 1);
    if graph.owners.is_empty() || current.is_empty() && next.is_empty() {
        return;
    }
    let mut waiting = Waiting::new(rounds, graph);
    let mut round = 0;
    while !current.is_empty() || !next.is_empty() {
        for &position in &current {
            let mut attack = waiting.first[position as usize];
            while attack != NONE {
                let behind = waiting.next[attack as usize];
                let owner = graph.owners[attack as usize] as usize;
                if rounds[owner] == NEVER_LOST {
                    let mut targets = graph.targets_of(attack as usize).iter();
                    match targets.find(|&&t| rounds[t as usize] > round) {
                        Some(&later) => waiting.put(attack, later),
                        None => {
                            rounds[owner] = round + 1;
                            next.push(owner as u32);
                        }
                    }
                }
                attack = behind;
            }
        }
        round += 1;
        current.clear();
        std::mem::swap(&mut current, &mut next);
    }
}

/// Packed positions reached, with rounds, rising.
pub fn settled_positions(rules: Rules, task: &Task) -> Vec<(u32, u32)> {
    let mut encounters = vec![Encounter::default(); 256];
    for left in 0..task.left.states.len() as u8 {
        for right in 0..task.right.states.len() as u8 {
            let met = encounter(rules, task, left, right);
            encounters[(left as usize) << 4 | right as usize] = met;
        }
    }
    let mut explorer = Explorer {
        encounters: &encounters,
        reached: Reached { packed: Vec::new(), numbers: Numbers::default() },
        rounds: Vec::new(),
        graph: AttackGraph::default(),
        attacks: Attacks::none(rules),
        grid: Vec::new(),
        couples: Vec::new(),
    };
    explorer.run(pack(&Position::start(task)));
    let Explorer { reached, mut rounds, graph, .. } = explorer;
    drop(reached.numbers);
    settle(&mut rounds, &graph);
    drop(graph);
    let mut entries: Vec<(u32, u32)> = reached.packed.into_iter().zip(rounds).collect();
    entries.sort_unstable();
    entries
}

pub fn solve(rules: Rules, task: &Task) -> Solution {
    let packed = settled_positions(rules, task);
    let entries = packed.into_iter().map(|(p, rounds)| (unpack(p), rounds)).collect();
    Solution::new(rules, task, entries)
}
