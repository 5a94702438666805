//! History sizes: by hand, and on random tasks.

use crate::checker::{expect_by, refused as check_refused};
use crate::marked::{hex, model_g, model_p, run_by, stating as with_record, task_of};
use crate::whole::{assert_least_count, is_small, random_opening, rounds_at_start, tasks};
use crate::Test;
use reference::baseline;
use reference::check::CheckAnswer;
use reference::compare::*;
use reference::game::*;
use reference::generate::families::family;
use reference::generate::histories::{stating, with_history, SizeClass};
use reference::model::*;
use reference::numbers::{may_open_with, opening, Game, Number};
use reference::random::Random;
use reference::rules::Rules;
use reference::tally::Tally;
use reference::task::{read, write};
use reference::text::compare_output;

pub const TESTS: &[Test] = &[
    ("history: a new number is the better attack", worked_example),
    ("history: case 7 needs a number that neither holds", case_7),
    ("history: case 8 alone raises the size", raised_sizes),
    ("history: legal sizes", legal_sizes),
    ("history: the size stands last in the order of positions", order),
    ("history: twelve numbers held", twelve_held),
    ("history: compare meets 12", long_certificate),
    ("history: 13 stated is as no record", thirteen_stated),
    ("history: refusal 15 changes no buffer", refusal_15),
    ("history: sizes of an opening", opening_sizes),
    ("history: a larger one is never worse for the attacker", monotone),
    ("history: actual numbers, every size", actual_numbers),
    ("history: baseline, every size", baseline_agrees),
    ("history: checker, sizes by hand", checked_sizes),
    ("history: classes of sizes", classes),
    ("history: mistaken rules are found by the items", mistakes),
    ("history: mistaken rules are contradicted", numbers_show_mistakes),
];

const TWO_WAY: Rules = Rules::TWO_WAY;

/// Both readers take one number and hold it, then another and hold none; the
/// second edge is locally fresh on the left and globally fresh on the right.
fn example() -> Vec<u8> {
    let states = "01 01 03 00  02 00 00 00  02 01 01 00  02 02 00 00  03 00 00 01 01 01 ";
    let left = hex(&[states, "03 01 01 01 01 02"].concat());
    let right = hex(&[states, "03 01 01 02 01 02"].concat());
    with_record(task_of(left, right, &[]), 1)
}

/// With the one number that was seen, both hold all that was seen. With a
/// new one, the first is left for the locally fresh edge.
fn worked_example() {
    let (answer, table, buffer) = run_by(TWO_WAY, &example(), 65, 34);
    let (verdict, positions, rounds) = (2, 5, 2);
    let wanted = Answer { refusal: 0, verdict, positions, rounds, certificate_length: 34 };
    assert_eq!(answer, wanted);
    let records = "11 00 00 00 00 00 00 00 00 01 01 00 08 00 00 00 02 \
                   11 01 01 01 00 00 00 00 00 02 01 01 07 00 00 00 01";
    assert_eq!(buffer, hex(records));
    let entries = "00 00 00 00 00 00 00 00 01 00 00 00 02  01 01 01 00 00 00 00 00 01 ff ff ff ff \
                   01 01 01 00 00 00 00 00 02 00 00 00 01  02 02 00 00 00 00 00 00 02 ff ff ff ff \
                   02 02 00 00 00 00 00 00 03 ff ff ff ff";
    assert_eq!(table, hex(entries));
    let lines = "DIFFER 5 2\nLOST 0 0 0 0 0 0 0 0 1 1 0 8 2\nLOST 1 1 1 0 0 0 0 0 2 1 1 7 1\n";
    assert_eq!(compare_output(&example()), lines);
    let task = read(&example()).expect("a valid task");
    let numbers: Vec<Number> = (0..9).collect();
    assert_least_count(&task, &opening(&task, &numbers, 1), &solve(TWO_WAY, &task));
}

/// One state a side that holds two registers and has a locally fresh and a
/// globally fresh loop.
fn two_holders(pairs: Vec<(u8, u8)>) -> Task {
    let edge = |kind| Edge { from: 0, tag: 0, kind, register: 1, to: 0 };
    let edges = vec![edge(Kind::LocallyFresh), edge(Kind::GloballyFresh)];
    let states = vec![State { set: RegisterSet(3), end_mark: 0 }];
    let model = Model { registers: 2, start: 0, states, edges };
    Task::new(model.clone(), model, pairs)
}

fn case_7() {
    for (pairs, held, others) in
        [(vec![], 4, vec![1, 2]), (vec![(1, 2)], 3, vec![1]), (vec![(1, 1), (2, 2)], 2, vec![])]
    {
        for size in held..=MAX_HISTORY {
            let task = stating(two_holders(pairs.clone()), size).expect("a size that fits");
            let start = Position::start(&task);
            let left = attacks(Rules::ONE_WAY, &task, &start).into_iter();
            let cases: Vec<u8> = left.filter(|a| a.edge == 0).map(|a| a.case).collect();
            let fresh: &[u8] = if size > held { &[7, 8] } else { &[8] };
            assert_eq!(cases, [&others[..], fresh].concat(), "{held} held, size {size}");
            let global = existing_attack(TWO_WAY, &task, &start, [1, 1, 7]);
            assert_eq!(global, None);
            let seen = existing_attack(TWO_WAY, &task, &start, [2, 0, 7]);
            assert_eq!(seen.is_some(), size > held);
        }
    }
}

fn raised_sizes() {
    for task in tasks(110, 1500) {
        for (position, _) in settle_from(TWO_WAY, &task, &[Position::start(&task)]) {
            for attack in attacks(TWO_WAY, &task, &position) {
                let raised = if attack.case == 8 { position.history + 1 } else { position.history };
                for reply in replies(&task, &position, attack) {
                    assert_eq!(reply.leads_to.history, raised.min(13));
                    assert!(reply.leads_to.is_legal(&task));
                }
            }
        }
    }
}

fn legal_sizes() {
    for (partners, held) in
        [([0; 6], 4), ([1, 0, 0, 0, 0, 0], 3), ([0, 1, 0, 0, 0, 0], 3), ([2, 1, 0, 0, 0, 0], 2)]
    {
        for history in 0..=255 {
            let position = Position { left: 0, right: 0, partners, history };
            let legal = position.is_legal(&two_holders(Vec::new()));
            assert_eq!(legal, (held..=13).contains(&history), "{partners:?} {history}");
        }
    }
}

fn order() {
    let at = |partner, history| Position {
        left: 0,
        right: 0,
        partners: [0, 0, 0, 0, 0, partner],
        history,
    };
    assert!(at(0, 13) < at(1, 0) && at(1, 0) < at(1, 1));
    assert_eq!(at(6, 12).bytes(), [0, 0, 0, 0, 0, 0, 0, 6, 12]);
    assert_eq!(Position::from_bytes(&at(6, 12).bytes()), at(6, 12));
}

/// Six registers a side, none shared. The left reader has a locally fresh
/// edge; the right one takes what it holds and what was never seen. With 12
/// numbers seen there is no other; one round later there is.
fn twelve_held() {
    let edge = |kind, register| Edge { from: 0, tag: 0, kind, register, to: 0 };
    let known = (1..=6).map(|register| edge(Kind::Known, register));
    let with_edges = |edges: Vec<Edge>| Model {
        registers: 6,
        start: 0,
        states: vec![State { set: RegisterSet(0x3f), end_mark: 0 }],
        edges,
    };
    let left = with_edges(vec![edge(Kind::LocallyFresh, 1)]);
    let right = with_edges(known.chain([edge(Kind::GloballyFresh, 1)]).collect());
    let task = Task::new(left, right, Vec::new());
    let numbers: Vec<Number> = (0..40).collect();
    for (size, rounds) in [(12, 2), (13, 1)] {
        let task = stating(task.clone(), size).expect("a size that fits");
        let solution = solve(Rules::ONE_WAY, &task);
        assert_eq!((solution.verdict, solution.rounds), (Verdict::FallsShort, rounds));
        assert_least_count(&task, &opening(&task, &numbers, size as usize), &solution);
        assert!(baseline::solve(Rules::ONE_WAY, &task) == solution);
    }
    assert!(stating(task, 11).is_err());
}

/// 3,846 positions fit the table of 4,000 entries, and their 65,382 bytes of
/// certificate do not fit 64,000; one state less, and all fits.
fn long_certificate() {
    let task = |states| family("listed", &[states, 6, 3]).expect("listed");
    for rules in Rules::ALL {
        let solution = solve(rules, &task(14));
        assert_eq!((solution.entries.len(), solution.certificate.len()), (3846, 3846 * 17));
    }
    assert_eq!(compare_output(&write(&task(14))), "REFUSED 12\n");
    let text = compare_output(&write(&task(13)));
    assert!(text.starts_with("DIFFER 3404 12\n"), "{}", text.lines().next().unwrap_or(""));
    assert_eq!(text.lines().count(), 3405);
}

fn thirteen_stated() {
    for task in tasks(111, 1500).filter(|task| task.history() == MAX_HISTORY) {
        let plain = Task { history_record: None, ..task.clone() };
        let stated = Task { history_record: Some(MAX_HISTORY), ..task };
        assert_eq!(write(&stated).len(), write(&plain).len() + 2);
        for rules in Rules::ALL {
            assert!(solve(rules, &stated) == solve(rules, &plain));
        }
    }
}

fn refusal_15() {
    for size in [14, 255] {
        let task = with_record(task_of(model_p(), model_g(), &[]), size);
        for rules in Rules::ALL {
            let (answer, table, buffer) = run_by(rules, &task, 26, 20);
            assert_eq!(answer, Answer { refusal: 15, ..Answer::default() });
            assert_eq!((table, buffer), (vec![0xa5; 26], vec![0xa5; 20]));
            expect_by(rules, &task, &["ff"], check_refused(15));
        }
        assert_eq!(compare_output(&task), "REFUSED 15\n");
    }
}

fn opening_sizes() {
    let numbers: Vec<Number> = (0..40).collect();
    for size in 4..=MAX_HISTORY {
        let task = stating(two_holders(Vec::new()), size).expect("a size that fits");
        for history in 0..20 {
            let wanted = history == size as usize || size == 13 && history > 13;
            assert_eq!(may_open_with(&task, history), wanted, "{size} {history}");
            if wanted {
                let setting = opening(&task, &numbers, history);
                assert_eq!(setting.history.0.count_ones() as usize, history);
            }
        }
    }
}

/// The same task with each size that it can state, rising.
fn every_size(task: &Task) -> Vec<Task> {
    let sizes = task.held_at_start()..=MAX_HISTORY;
    sizes.map(|size| stating(task.clone(), size).expect("a size that fits")).collect()
}

/// Every attack of a position exists with a larger history too, and leads to
/// the same positions with a larger one.
fn monotone() {
    let mut seen = Tally::default();
    for task in tasks(112, 1200).filter(is_small) {
        for rules in Rules::ALL {
            let solutions: Vec<Solution> =
                every_size(&task).iter().map(|t| baseline::solve(rules, t)).collect();
            for two in solutions.windows(2) {
                let [small, large] =
                    [&two[0], &two[1]]
                        .map(|s| if s.verdict.is_kept() { NEVER_LOST } else { s.rounds });
                assert!(small >= large, "{small} {large}");
            }
            let (first, last) = (&solutions[0], &solutions[solutions.len() - 1]);
            seen.add_beside_13(last, first);
        }
    }
    print!("{}", seen.table());
    assert!(seen.get("beside-13:kept-by-a-small-history") >= 10);
    assert!(seen.get("beside-13:lost-later") >= 10);
}

fn actual_numbers() {
    let mut random = Random::new(114);
    for task in tasks(113, 2000).filter(is_small).take(80) {
        for task in every_size(&task) {
            for rules in Rules::ALL {
                let setting = random_opening(&mut random, &task);
                assert_least_count(&task, &setting, &solve(rules, &task));
            }
        }
    }
}

fn baseline_agrees() {
    for task in tasks(115, 700).filter(is_small) {
        for task in every_size(&task) {
            for rules in Rules::ALL {
                assert!(baseline::solve(rules, &task) == solve(rules, &task), "{task:?}");
            }
        }
    }
    for (name, sizes, history) in [
        ("dearest", &[4][..], 8),
        ("dearest-equal", &[3], 6),
        ("ring", &[3, 4], 10),
        ("ring-equal", &[4, 3], 6),
        ("ring-late", &[4, 3], 8),
        ("rings", &[16, 15], 1),
        ("listed", &[9, 6, 3], 12),
    ] {
        let task = stating(family(name, sizes).expect("a family"), history).expect("it fits");
        assert!(baseline::solve(TWO_WAY, &task) == solve(TWO_WAY, &task), "{name}");
    }
}

fn checked_sizes() {
    const EQUAL: CheckAnswer = CheckAnswer { refusal: 0, verdict: 1, rounds: 0 };
    const DIFFER: CheckAnswer = CheckAnswer { refusal: 0, verdict: 2, rounds: 1 };
    let expect = |size, list: &[&str], wanted| {
        let task = with_record(task_of(model_p(), model_g(), &[]), size);
        expect_by(TWO_WAY, &task, list, wanted);
    };
    let start = |size: u8| format!("10 00 00 00 00 00 00 00 00 {size:02x} ");
    let after = |size: u8| format!("10 01 01 01 00 00 00 00 00 {size:02x} ");
    expect(0, &[&start(0), &after(1)], EQUAL);
    // The start has another size, or the reply leads to another size.
    expect(1, &[&start(0), &after(1)], check_refused(14));
    expect(0, &[&start(0), &after(2)], check_refused(14));
    expect(0, &[&start(0), &after(13)], check_refused(14));
    // With a size of 1 there is case 7; more rows with other sizes may stand.
    expect(1, &[&start(1), &after(2)], check_refused(14));
    expect(0, &[&start(0), &after(1), &after(2), &after(13)], EQUAL);
    // Not rising in the size alone; the same row twice.
    expect(0, &[&start(0), &after(2), &after(1)], check_refused(13));
    expect(0, &[&start(0), &after(1), &after(1)], check_refused(13));
    // Above 13, or less than the one number held.
    expect(0, &[&start(0), &after(1), &after(14)], check_refused(13));
    expect(0, &[&start(0), &after(0)], check_refused(13));
    expect(0, &[&start(255), &after(1)], check_refused(13));
    // Case 7 with the sizes 0 and 1.
    let attack = |size: u8| format!("11 00 00 00 00 00 00 00 00 {size:02x} 01 00 07 00 00 00 01 ");
    expect(0, &[&attack(0)], check_refused(14));
    expect(0, &[&attack(1)], check_refused(14));
    expect(1, &[&attack(1)], DIFFER);
    expect(1, &[&attack(1), &attack(2), &attack(13)], DIFFER);
    expect(1, &[&attack(0), &attack(1)], check_refused(14));
    expect(1, &[&attack(1), &attack(14)], check_refused(13));
    expect(13, &[&attack(13)], DIFFER);
}

/// Every class is drawn, and a good third of the tasks has a small size.
fn classes() {
    let mut random = Random::new(116);
    let mut seen = Tally::default();
    for task in tasks(116, 3000) {
        let drawn = with_history(&mut random, task, false);
        let class = SizeClass::of(&drawn);
        assert_eq!(class == SizeClass::NoRecord, drawn.history_record.is_none());
        seen.add(class.name());
    }
    print!("{}", seen.table());
    assert!(SizeClass::ALL.iter().all(|class| seen.get(class.name()) >= 100));
    let large = seen.get("13") + seen.get("no-record");
    let small: u64 = SizeClass::ALL[..4].iter().map(|class| seen.get(class.name())).sum();
    assert!(small * 2 > large && small < large, "{small} {large}");
}

const MISTAKES: usize = 6;

/// Rules with one mistake: 0, case 7 always exists; 1, it exists with a
/// history of 13 only; 2, shared numbers count twice; 3, case 8 does not
/// raise the size; 4, case 7 raises it too; 5, only globally fresh edges
/// raise it.
fn mistaken_moves(mistake: usize, task: &Task, position: &Position) -> Vec<Vec<Position>> {
    let (left, right) = (task.left.set(position.left), task.right.set(position.right));
    let counted_twice = (left.len() + right.len()) as u8;
    let seen_exists = match mistake {
        0 => true,
        1 => position.history == MAX_HISTORY,
        2 => position.history > counted_twice,
        _ => position.history > position.held_together(task),
    };
    // The size decides about nothing but case 7.
    let history = if seen_exists { MAX_HISTORY } else { 0 };
    let list = attacks(TWO_WAY, task, &Position { history, ..*position }).into_iter();
    list.map(|attack| {
        let led = replies(task, position, attack).into_iter();
        led.map(|reply| Position {
            history: mistaken_size(mistake, task, position, attack, &reply),
            ..reply.leads_to
        })
        .collect()
    })
    .collect()
}

fn mistaken_size(
    mistake: usize,
    task: &Task,
    position: &Position,
    attack: Attack,
    reply: &Reply,
) -> u8 {
    let global =
        |side: Side, edge: u8| task.model(side).edges[edge as usize].kind == Kind::GloballyFresh;
    let raised = match mistake {
        3 => false,
        4 => attack.case >= CASE_SEEN,
        5 => global(attack.side, attack.edge) || global(attack.side.other(), reply.edge),
        _ => attack.case == CASE_NEW,
    };
    (position.history + raised as u8).min(MAX_HISTORY)
}

fn mistakes() {
    let mut shown = [0; MISTAKES];
    for task in tasks(117, 4000) {
        let right = settle_from(TWO_WAY, &task, &[Position::start(&task)]);
        if right.len() > 300 {
            continue;
        }
        let rounds = rounds_at_start(&task, &right);
        for (mistake, count) in shown.iter_mut().enumerate() {
            let entries = settle_by(TWO_WAY, &task, |p| mistaken_moves(mistake, &task, p));
            *count += (rounds_at_start(&task, &entries) != rounds) as u32;
        }
    }
    println!("       items whose rounds show a mistake: {shown:?}");
    assert!(shown.iter().all(|&n| n >= 10), "{shown:?}");
}

fn numbers_show_mistakes() {
    let mut shown = [0; MISTAKES];
    let mut random = Random::new(119);
    for task in tasks(118, 6000).filter(is_small) {
        if task.history() == MAX_HISTORY {
            continue;
        }
        let setting = random_opening(&mut random, &task);
        let mut game = Game::new(TWO_WAY, &task, 1);
        for (mistake, count) in shown.iter_mut().enumerate() {
            let entries = settle_by(TWO_WAY, &task, |p| mistaken_moves(mistake, &task, p));
            let rounds = rounds_at_start(&task, &entries);
            let mut disagrees = |n: u32| game.forced_within(&setting, n) != (rounds <= n);
            *count += (0..=3).any(&mut disagrees) as u32;
        }
    }
    println!("       tasks that show a mistake: {shown:?}");
    assert!(shown.iter().all(|&n| n >= 10), "{shown:?}");
}
