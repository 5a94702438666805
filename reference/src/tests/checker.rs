//! The certificate checker, by hand.

use crate::marked::{hex, model_g, model_p, task_11, task_of};
use crate::Test;
use reference::check::{check_by, CheckAnswer};
use reference::rules::Rules;

pub const TESTS: &[Test] = &[
    ("checker: bisimulations", bisimulations),
    ("checker: attacks", attack_lists),
    ("checker: marked case 11", case_11),
    ("checker: ill-formed lists", ill_formed),
    ("checker: task refusals come first", task_refusals),
    ("checker: differing end marks", end_marks),
];

const EQUAL: CheckAnswer = CheckAnswer { refusal: 0, verdict: 1, rounds: 0 };

fn differ(rounds: u32) -> CheckAnswer {
    CheckAnswer { refusal: 0, verdict: 2, rounds }
}

pub fn refused(refusal: u32) -> CheckAnswer {
    CheckAnswer { refusal, verdict: 0, rounds: 0 }
}

pub fn expect_by(rules: Rules, task: &[u8], certificate: &[&str], wanted: CheckAnswer) {
    let text = certificate.concat();
    assert_eq!(check_by(rules, task, &hex(&text)), wanted, "{} {text}", rules.name);
}

fn expect(task: &[u8], certificate: &[&str], wanted: CheckAnswer) {
    expect_by(Rules::TWO_WAY, task, certificate, wanted);
}

const START: &str = "10 00 00 00 00 00 00 00 00 0d ";
const AFTER: &str = "10 01 01 01 00 00 00 00 00 0d ";

fn bisimulations() {
    let task = task_of(model_p(), model_p(), &[]);
    expect(&task, &[START, AFTER], EQUAL);
    expect(&task, &[START], refused(14));
    expect(&task, &[AFTER], refused(14));
    expect(&task, &[], refused(14));
    // Legal, never reached, not to be replied to.
    expect(&task, &[START, "10 01 01 00 00 00 00 00 00 0d ", AFTER], refused(14));
    expect(&task, &[START, "10 00 01 00 00 00 00 00 00 0d ", AFTER], refused(14));
    // P and G: no reply to case 7.
    expect(&task_of(model_p(), model_g(), &[]), &[START, AFTER], refused(14));
    // A larger bisimulation: a second state of both readers, never reached,
    // that does nothing.
    let idle = hex("01 00 02 00  02 00 00 00  02 01 00 00");
    let idle_task = task_of(idle.clone(), idle, &[]);
    expect(&idle_task, &[START], EQUAL);
    expect(&idle_task, &[START, "10 01 01 00 00 00 00 00 00 0d"], EQUAL);
}

fn attack_lists() {
    let task = task_of(model_p(), model_g(), &[]);
    let position = "11 00 00 00 00 00 00 00 00 0d ";
    expect(&task, &[position, "01 00 07 00 00 00 01"], differ(1));
    expect(&task, &[position, "01 00 07 00 00 01 02"], differ(258));
    expect(&task, &[position, "01 00 07 ff ff ff ff"], differ(u32::MAX));
    // Rounds 0 with equal end marks.
    expect(&task, &[position, "00 00 00 00 00 00 00"], refused(14));
    expect(&task, &[position, "01 00 07 00 00 00 00"], refused(14));
    // Case 8 has a reply, to a position that is not listed.
    expect(&task, &[position, "01 00 08 00 00 00 01"], refused(14));
    // G's edge is globally fresh: case 8 only, and P replies.
    expect(&task, &[position, "02 00 07 00 00 00 01"], refused(14));
    expect(&task, &[position, "02 00 08 00 00 00 01"], refused(14));
    // Attacks that do not exist: side, edge, case, edge of another state.
    for fields in [
        "00 00 07", "03 00 07", "01 02 07", "01 ff 07", "01 00 00", "01 00 01", "01 00 09",
        "01 01 00",
    ] {
        expect(&task, &[position, fields, " 00 00 00 01"], refused(14));
    }
}

fn case_11() {
    let task = task_11();
    let start = |fields: &str| format!("11 00 00 01 00 00 00 00 00 0d {fields} ");
    let one = |fields: &str| format!("11 01 01 01 00 00 00 00 00 0d {fields} ");
    let two = |fields: &str| format!("11 01 02 01 00 00 00 00 00 0d {fields} ");
    let good =
        [start("01 00 00 00 00 00 02"), one("01 02 00 00 00 00 01"), two("01 01 00 00 00 00 01")];
    let run = |list: &[&String], wanted| {
        let parts: Vec<&str> = list.iter().map(|s| s.as_str()).collect();
        expect(&task, &parts, wanted)
    };
    run(&[&good[0], &good[1], &good[2]], differ(2));
    // A reply's position is missing; the start is missing.
    run(&[&good[0], &good[1]], refused(14));
    run(&[&good[0], &good[2]], refused(14));
    run(&[&good[1], &good[2]], refused(14));
    // As many rounds as the reply's position, not fewer.
    run(&[&start("01 00 00 00 00 00 01"), &good[1], &good[2]], refused(14));
    run(&[&good[0], &one("01 02 00 00 00 00 02"), &good[2]], refused(14));
    // More than needed, still falling.
    run(&[&start("01 00 00 00 00 01 00"), &one("01 02 00 00 00 00 ff"), &good[2]], differ(256));
    // Two wrongs of unlike numbers: the form counts first.
    run(&[&good[1], &good[0]], refused(13));
    // From state 1, left edge 1 has a reply in (1, 1).
    run(&[&good[0], &one("01 01 00 00 00 00 01"), &good[2]], refused(14));
}

fn ill_formed() {
    let task = task_of(model_p(), model_p(), &[]);
    // Unknown kind.
    for kind in ["00", "0f", "12", "ff"] {
        expect(&task, &[kind], refused(13));
        expect(&task, &[START, AFTER, kind], refused(13));
    }
    // Two kinds, each record whole.
    let lost = "11 01 01 01 00 00 00 00 00 0d 00 00 00 00 00 00 00 ";
    expect(&task, &[START, lost], refused(13));
    expect(&task, &["11 00 00 00 00 00 00 00 00 0d 01 00 07 00 00 00 01 ", AFTER], refused(13));
    // Cut bodies.
    expect(&task, &[START, AFTER, "10"], refused(13));
    expect(&task, &[START, "10 01 01 01 00 00 00 00 00"], refused(13));
    expect(&task, &["11 00 00 00 00 00 00 00 00 01 00 07 00 00 00 01"], refused(13));
    expect(&task, &["11 00 00 00 00 00 00 00 00 0d 01 00 07 00 00 00"], refused(13));
    // Illegal positions: states, partners outside the sets, a right register
    // twice, partners beyond 6.
    for position in [
        "02 00 00 00 00 00 00 00",
        "00 02 00 00 00 00 00 00",
        "00 00 01 00 00 00 00 00",
        "01 01 02 00 00 00 00 00",
        "01 01 00 01 00 00 00 00",
        "01 01 01 01 00 00 00 00",
        "01 01 ff 00 00 00 00 00",
        "01 00 01 00 00 00 00 00",
    ] {
        expect(&task, &["10 ", position, " 0d"], refused(13));
        expect(&task, &["11 ", position, " 0d 00 00 00 00 00 00 00"], refused(13));
    }
    // Not strictly rising.
    expect(&task, &[AFTER, START], refused(13));
    expect(&task, &[START, START, AFTER], refused(13));
}

fn task_refusals() {
    expect(&[], &["ff"], refused(2));
    expect(&[9], &[START], refused(1));
    expect(&hex("01 07 01 00"), &[], refused(4));
}

fn end_marks() {
    let one = hex("01 01 01 00  02 00 01 01  03 00 00 01 01 00");
    let zero = hex("01 01 01 00  02 00 01 00");
    let task = task_of(one, zero, &[]);
    let position = "11 00 00 00 00 00 00 00 00 0d ";
    expect(&task, &[START], refused(14));
    expect(&task, &[position, "00 00 00 00 00 00 00"], differ(0));
    // Zero rounds go with zero fields.
    expect(&task, &[position, "01 00 07 00 00 00 00"], refused(14));
    expect(&task, &[position, "00 00 01 00 00 00 00"], refused(14));
    // More rounds than needed, by an attack that wins, and by none.
    expect(&task, &[position, "01 00 07 00 00 00 03"], differ(3));
    expect(&task, &[position, "00 00 00 00 00 00 03"], refused(14));
}
