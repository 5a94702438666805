//! Properties of whole tasks, by each of the games: actual numbers,
//! certificates, exchange of sides, lent sizes, the baseline, the families.

use crate::Test;
use reference::baseline;
use reference::check::check_by;
use reference::compare::*;
use reference::game::*;
use reference::generate::families::family;
use reference::generate::histories::stating;
use reference::generate::*;
use reference::model::*;
use reference::numbers::{opening, Game, Number, Setting};
use reference::random::Random;
use reference::rules::Rules;
use reference::task::{read, write};
use std::collections::{BTreeMap, BTreeSet};

pub const TESTS: &[Test] = &[
    ("actual numbers: least count is the rounds", || actual_numbers(Rules::TWO_WAY, 14_000)),
    ("actual numbers: least count is the rounds, one-way", || {
        actual_numbers(Rules::ONE_WAY, 24_000)
    }),
    ("actual numbers: one never-seen number is enough", two_new_numbers),
    ("actual numbers: the history matters", short_history),
    ("actual numbers: mistaken rules are contradicted", numbers_show_mistakes),
    ("whole: own certificates are accepted", || own_certificates(Rules::TWO_WAY)),
    ("whole: own certificates are accepted, one-way", || own_certificates(Rules::ONE_WAY)),
    ("whole: attack lists have first attacks, are closed and no longer", || {
        attack_lists(Rules::TWO_WAY)
    }),
    ("whole: attack lists have first attacks, are closed and no longer, one-way", || {
        attack_lists(Rules::ONE_WAY)
    }),
    ("whole: exchanging sides keeps verdict, rounds and positions", exchanged_sides),
    ("whole: every lent size", || lent_sizes(Rules::TWO_WAY)),
    ("whole: every lent size, one-way", || lent_sizes(Rules::ONE_WAY)),
    ("whole: known mistakes are found by the items", mistakes),
    ("baseline: same answers as the plain comparer", || baseline_agrees(Rules::TWO_WAY)),
    ("baseline: same answers as the plain comparer, one-way", || baseline_agrees(Rules::ONE_WAY)),
    ("families: dearest counts", dearest_counts),
    ("families: rounds of chains and rings", chain_rounds),
    ("families: rounds of chains and rings, one-way", one_way_rounds),
    ("families: ring of 16 states and 6 registers", large_ring),
];

/// Valid tasks among the items of a seed.
pub fn tasks(seed: u64, count: u64) -> impl Iterator<Item = Task> {
    (0..count).filter_map(move |index| read(&item(seed, index).bytes).ok())
}

/// Counts looked at with actual numbers.
const MOST_ROUNDS: u32 = 5;

/// Small enough for brute force: 1 to 3 registers in use, 1 to 4 states.
pub fn is_small(task: &Task) -> bool {
    Side::BOTH.iter().all(|&side| {
        let model = task.model(side);
        let held = model.states.iter().fold(0, |all, s| all | s.set.0);
        let written = model.edges.iter().fold(held, |all, e| all | 1 << (e.register - 1));
        let registers = written.count_ones();
        (1..=3).contains(&registers) && model.states.len() <= 4 && model.edges.len() <= 8
    })
}

/// An opening with numbers drawn at random and a history of the stated size,
/// or of 13 to 16 where 13 is stated.
pub fn random_opening(random: &mut Random, task: &Task) -> Setting {
    let mut numbers: Vec<Number> = (0..50).collect();
    random.shuffle(&mut numbers);
    let beyond = if task.history() == MAX_HISTORY { random.below(4) } else { 0 };
    opening(task, &numbers, task.history() as usize + beyond)
}

/// "never", or the rounds, or "more" than brute force looks at.
fn class_of(solution: &Solution) -> String {
    match solution.verdict.is_kept() {
        true => "never".to_string(),
        false if solution.rounds > MOST_ROUNDS => "more".to_string(),
        false => solution.rounds.to_string(),
    }
}

/// The rounds are the least count that is enough with actual numbers.
pub fn assert_least_count(task: &Task, setting: &Setting, solution: &Solution) {
    let mut game = Game::new(solution.rules, task, 1);
    for count in 0..=MOST_ROUNDS {
        let lost = !solution.verdict.is_kept() && solution.rounds <= count;
        assert_eq!(game.forced_within(setting, count), lost, "count {count}");
    }
}

fn actual_numbers(rules: Rules, items: u64) {
    let mut seen: BTreeMap<(String, &str), usize> = BTreeMap::new();
    let mut random = Random::new(71);
    for task in tasks(70, items).filter(is_small) {
        let solution = solve(rules, &task);
        let history = if task.history() == MAX_HISTORY { "13" } else { "below 13" };
        let class = seen.entry((class_of(&solution), history)).or_insert(0);
        if *class == 250 {
            continue;
        }
        *class += 1;
        let setting = random_opening(&mut random, &task);
        assert_least_count(&task, &setting, &solution);
    }
    println!("       tasks by rounds: {seen:?}");
    for class in ["0", "1", "2", "3", "4", "never"] {
        for history in ["13", "below 13"] {
            let count = seen.get(&(class.to_string(), history)).copied().unwrap_or(0);
            assert!(count >= 25, "{count} of class {class}, history {history}");
        }
    }
}

fn two_new_numbers() {
    let mut random = Random::new(73);
    for task in tasks(72, 2000).filter(is_small).take(300) {
        let setting = random_opening(&mut random, &task);
        for rules in Rules::ALL {
            let (mut one, mut two) = (Game::new(rules, &task, 1), Game::new(rules, &task, 2));
            for count in 0..=3 {
                let answers = [&mut one, &mut two].map(|g| g.forced_within(&setting, count));
                assert_eq!(answers[0], answers[1]);
            }
        }
    }
}

/// Six registers, all shared, a locally fresh edge against a globally fresh
/// one. If only the six numbers were seen, there is no seen number that
/// neither holds, so the globally fresh edge takes all that the other takes,
/// and only in the next round is there a number that was let go. The locally
/// fresh edge is the left one's, so the one-way game is like the other.
fn short_history() {
    let state = State { set: RegisterSet(0x3f), end_mark: 0 };
    let model = |kind| {
        let edge = Edge { from: 0, tag: 0, kind, register: 1, to: 0 };
        Model { registers: 6, start: 0, states: vec![state], edges: vec![edge] }
    };
    let pairs = (1..=6).map(|r| (r, r)).collect();
    let task = Task::new(model(Kind::LocallyFresh), model(Kind::GloballyFresh), pairs);
    let numbers: Vec<Number> = (0..40).collect();
    for rules in Rules::ALL {
        for (size, rounds) in [(6, 2), (7, 1), (12, 1), (13, 1)] {
            let task = stating(task.clone(), size).expect("a size that fits");
            let solution = solve(rules, &task);
            assert_eq!((solution.verdict, solution.rounds), (rules.lost, rounds));
            assert_least_count(&task, &opening(&task, &numbers, size as usize), &solution);
        }
    }
}

fn own_certificates(rules: Rules) {
    for task in tasks(80, 3000) {
        let solution = solve(rules, &task);
        let answer = check_by(rules, &write(&task), &solution.certificate);
        assert_eq!(answer.refusal, 0);
        assert_eq!((answer.verdict, answer.rounds), (solution.verdict.number(), solution.rounds));
        assert!(solution.rounds as usize <= solution.entries.len());
        assert!(solution.entries.iter().all(|(p, _)| p.is_legal(&task)));
    }
}

/// A listed attack: side, edge and case as bytes.
type AttackBytes = [u8; 3];

/// A game of one task, with the rounds of its positions.
struct Settled<'a> {
    rules: Rules,
    task: &'a Task,
    rounds_of: BTreeMap<Position, u32>,
}

impl Settled<'_> {
    fn wins(&self, position: &Position, bytes: AttackBytes) -> bool {
        let Some(attack) = existing_attack(self.rules, self.task, position, bytes) else {
            return false;
        };
        let sooner = |r: &Reply| self.rounds_of[&r.leads_to] < self.rounds_of[position];
        replies(self.task, position, attack).iter().all(sooner)
    }

    /// The first of all byte triples that is a winning attack.
    fn first_by_bytes(&self, position: &Position) -> Option<AttackBytes> {
        let edges = (1..=2).flat_map(|side| (0..64).map(move |edge| (side, edge)));
        let mut triples =
            edges.flat_map(|(side, edge)| (0..=8).map(move |case| [side, edge, case]));
        triples.find(|&bytes| self.wins(position, bytes))
    }
}

fn attack_lists(rules: Rules) {
    let mut lists = 0;
    for task in tasks(84, 3000) {
        let solution = solve(rules, &task);
        if solution.verdict.is_kept() || solution.entries.len() > 500 {
            continue;
        }
        lists += 1;
        check_attack_list(&task, &solution);
    }
    assert!(lists > 500);
}

fn check_attack_list(task: &Task, solution: &Solution) {
    let rules = solution.rules;
    let settled = Settled { rules, task, rounds_of: solution.entries.iter().copied().collect() };
    let mut led_to = BTreeSet::from([Position::start(task)]);
    let mut listed = BTreeSet::new();
    for record in solution.certificate.chunks(17) {
        let position = Position::from_bytes(&record[1..10]);
        let fields = [record[10], record[11], record[12]];
        let rounds = u32::from_be_bytes([record[13], record[14], record[15], record[16]]);
        assert_eq!((record[0], rounds), (rules.lost.kind(), settled.rounds_of[&position]));
        listed.insert(position);
        if rounds == 0 {
            assert_eq!(fields, [0, 0, 0]);
            continue;
        }
        assert_eq!(Some(fields), settled.first_by_bytes(&position));
        let attack = existing_attack(rules, task, &position, fields);
        let list = replies(task, &position, attack.expect("an attack"));
        led_to.extend(list.iter().map(|r| r.leads_to));
    }
    // What attacks lead to has fewer rounds, so equal sets mean that every
    // listed position is led to from the start.
    assert_eq!(listed, led_to);
}

fn exchanged_sides() {
    for task in tasks(81, 3000) {
        let (one, two) = (solve(Rules::TWO_WAY, &task), solve(Rules::TWO_WAY, &task.exchanged()));
        assert_eq!((one.verdict, one.rounds), (two.verdict, two.rounds));
        assert_eq!(one.entries.len(), two.entries.len());
    }
}

fn lent_sizes(rules: Rules) {
    let mut random = Random::new(82);
    for task in tasks(82, 120) {
        let solution = solve(rules, &task);
        let (entries, needed) = (solution.entries.len(), solution.certificate.len());
        if entries > 12 {
            continue;
        }
        for table_size in 0..entries * 13 + 15 {
            let buffer_size = [needed, needed - 1, needed + 3, 0][random.below(4)];
            check_sizes(&mut random, &task, &solution, table_size, buffer_size);
        }
        for buffer_size in 0..needed + 5 {
            check_sizes(&mut random, &task, &solution, entries * 13 + 5, buffer_size);
        }
    }
}

fn check_sizes(random: &mut Random, task: &Task, solution: &Solution, table: usize, buffer: usize) {
    let (mut table, mut buffer) = (random.bytes(table), random.bytes(buffer));
    let before = buffer.clone();
    let answer = compare_by(solution.rules, &write(task), &mut table, &mut buffer);
    let needed = solution.certificate.len();
    let refusal = match () {
        _ if table.len() < 13 * solution.entries.len() => 11,
        _ if buffer.len() < needed => 12,
        _ => 0,
    };
    assert_eq!(answer.refusal, refusal);
    if refusal != 0 {
        assert_eq!(answer, Answer { refusal, ..Answer::default() });
        assert!(table.iter().all(|&b| b == 0));
        assert_eq!(buffer, before);
        return;
    }
    assert_eq!(answer.certificate_length as usize, needed);
    assert_eq!(buffer[..needed], solution.certificate);
    assert_eq!(buffer[needed..], before[needed..]);
    let used = 13 * answer.positions as usize;
    assert!(table[used..].iter().all(|&b| b == 0));
    assert!(table[..used].chunks(13).is_sorted_by(|a, b| a[..9] < b[..9]));
}

/// Rules with one mistake: 0, locally fresh attacks with new numbers only; 1,
/// known edges of unpartnered registers lost; 2, written registers keep their
/// partner.
fn mistaken_moves(mistake: usize, task: &Task, position: &Position) -> Vec<Vec<Position>> {
    match mistake {
        0 => kept_moves(task, position, |a| !(1..=6).contains(&a.case), |_, _| true),
        1 => kept_moves(task, position, |_| true, |a, partnered| a.case != 0 || partnered),
        _ => forgetful_moves(task, position),
    }
}

pub fn rounds_at_start(task: &Task, entries: &[(Position, u32)]) -> u32 {
    let start = Position::start(task);
    entries.iter().find(|(p, _)| *p == start).expect("the start is reached").1
}

/// How many of these items would show each mistake: the three above; guesses
/// that stay believed; everything EQUAL that is not lost in round one.
fn mistakes() {
    let mut shown = [0; 5];
    for task in tasks(83, 4000) {
        let right = settle_from(Rules::TWO_WAY, &task, &[Position::start(&task)]);
        if right.len() > 300 {
            continue;
        }
        for mistake in 0..3 {
            let entries = settle_by(Rules::TWO_WAY, &task, |p| mistaken_moves(mistake, &task, p));
            shown[mistake] += (entries != right) as u32;
        }
        let rounds = rounds_at_start(&task, &right);
        shown[3] += (believing(&task) != (rounds == NEVER_LOST)) as u32;
        let called_equal_after_round_one = rounds > 1;
        shown[4] += (called_equal_after_round_one && rounds != NEVER_LOST) as u32;
    }
    println!("       items that show a mistake: {shown:?}");
    assert!(shown.iter().all(|&n| n >= 20), "{shown:?}");
}

/// The brute force contradicts rounds that come from mistaken rules.
fn numbers_show_mistakes() {
    let mut shown = [0; 3];
    let mut random = Random::new(75);
    for task in tasks(74, 6000).filter(is_small) {
        let setting = random_opening(&mut random, &task);
        let mut game = Game::new(Rules::TWO_WAY, &task, 1);
        for mistake in 0..3 {
            let entries = settle_by(Rules::TWO_WAY, &task, |p| mistaken_moves(mistake, &task, p));
            let rounds = rounds_at_start(&task, &entries);
            let disagrees =
                |n: u32, game: &mut Game| game.forced_within(&setting, n) != (rounds <= n);
            shown[mistake] += (0..=3).any(|n| disagrees(n, &mut game)) as u32;
        }
    }
    println!("       tasks that show a mistake: {shown:?}");
    assert!(shown.iter().all(|&n| n >= 10), "{shown:?}");
}

/// The moves with some attacks left out, or some replies taken away.
fn kept_moves(
    task: &Task,
    position: &Position,
    attack_kept: impl Fn(&Attack) -> bool,
    replies_kept: impl Fn(&Attack, bool) -> bool,
) -> Vec<Vec<Position>> {
    let kept = attacks(Rules::TWO_WAY, task, position).into_iter().filter(|a| attack_kept(a));
    kept.map(|attack| {
        let edge = task.model(attack.side).edges[attack.edge as usize];
        let partnered = position.partner(attack.side, edge.register).is_some();
        let list = replies(task, position, attack);
        list.iter().filter(|_| replies_kept(&attack, partnered)).map(|r| r.leads_to).collect()
    })
    .collect()
}

/// Old partners stay wherever the to sets let them, though their register
/// was written.
fn forgetful_moves(task: &Task, position: &Position) -> Vec<Vec<Position>> {
    let mut all = moves(Rules::TWO_WAY, task, position);
    for next in all.iter_mut().flatten() {
        let (left, right) = (task.left.set(next.left), task.right.set(next.right));
        for (index, &old) in position.partners.iter().enumerate() {
            let stays = left.contains(index as u8 + 1) && right.contains(old);
            if stays && next.partners[index] == 0 {
                next.partners[index] = old;
            }
        }
    }
    all
}

/// Depth first, with every unfinished position believed to be equal and
/// every answer remembered: true if it says EQUAL.
fn believing(task: &Task) -> bool {
    fn holds(task: &Task, p: Position, memory: &mut BTreeMap<Position, bool>) -> bool {
        if let Some(&known) = memory.get(&p) {
            return known;
        }
        memory.insert(p, true);
        let answer = !p.is_lost_at_once(Rules::TWO_WAY, task)
            && moves(Rules::TWO_WAY, task, &p)
                .iter()
                .all(|ts| ts.iter().any(|&t| holds(task, t, memory)));
        memory.insert(p, answer);
        answer
    }
    holds(task, Position::start(task), &mut BTreeMap::new())
}

fn baseline_agrees(rules: Rules) {
    for task in tasks(90, 6000) {
        assert!(baseline::solve(rules, &task) == solve(rules, &task), "{task:?}");
    }
    for (name, sizes) in [
        ("dearest", &[5][..]),
        ("dearest-equal", &[4]),
        ("ring", &[3, 4]),
        ("ring-equal", &[4, 3]),
        ("ring-late", &[5, 3]),
        ("chain", &[16]),
        ("rings", &[16, 15]),
        ("forks", &[5, 2]),
        ("forks-late", &[15, 2]),
        ("filling", &[5, 2]),
        ("filling-equal", &[4, 3]),
    ] {
        let task = family(name, sizes).expect("a family");
        assert!(baseline::solve(rules, &task) == solve(rules, &task), "{name}");
    }
}

fn dearest_counts() {
    for (registers, wanted) in [1, 2, 7, 34, 209, 1546, 13327].into_iter().enumerate() {
        let task = family("dearest", &[registers]).expect("dearest");
        assert_eq!(
            solve(Rules::TWO_WAY, &task).entries.len(),
            wanted,
            "{registers} registers, plain"
        );
        assert_eq!(
            baseline::settled_positions(Rules::TWO_WAY, &task).len(),
            wanted,
            "{registers} registers"
        );
    }
}

fn chain_rounds() {
    for states in 1..=16 {
        let solution = solve(Rules::TWO_WAY, &family("chain", &[states]).expect("chain"));
        assert_eq!((solution.verdict, solution.rounds as usize), (Verdict::Differ, states - 1));
    }
    for long in 3..=16 {
        let solution = solve(Rules::TWO_WAY, &family("rings", &[long, long - 1]).expect("rings"));
        assert_eq!(solution.rounds as usize, 2 * long - 3);
        assert_eq!(solution.entries.len(), long * (long - 1));
    }
}

fn one_way_rounds() {
    for states in 2..=16 {
        let task = family("chain", &[states]).expect("chain");
        assert_eq!(solve(Rules::ONE_WAY, &task).verdict, Verdict::Follows);
        let back = solve(Rules::ONE_WAY, &task.exchanged());
        assert_eq!((back.verdict, back.rounds as usize), (Verdict::FallsShort, states - 1));
    }
    for long in 3..=16 {
        let task = family("rings", &[long, long - 1]).expect("rings");
        let solution = solve(Rules::ONE_WAY, &task);
        assert_eq!(solution.rounds as usize, 2 * long - 2);
        assert_eq!(solution.entries.len(), long * (long - 1));
    }
}

fn large_ring() {
    let task = family("ring", &[16, 6]).expect("ring");
    assert_eq!(read(&write(&task)).as_ref(), Ok(&task));
    let count = baseline::settled_positions(Rules::TWO_WAY, &task).len();
    assert!(count > 3_000_000 && count <= 3_411_712, "{count}");
}
