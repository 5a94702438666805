//! Edges that do what another edge does. They change nothing that a reader
//! does, so verdict, rounds and positions stay as they were; but an attack
//! has one more reply, and two replies lead to one position.

use super::models::tidy;
use crate::model::*;

/// The task with a double of every fresh edge that can have one, as far as
/// there is room.
pub fn doubled(mut task: Task) -> Task {
    double_edges(&mut task.left);
    double_edges(&mut task.right);
    task
}

fn double_edges(model: &mut Model) {
    let doubles: Vec<Edge> = model.edges.iter().filter_map(|e| double(model, e)).collect();
    let room = MAX_EDGES - model.edges.len();
    for edge in doubles.into_iter().take(room) {
        model.registers = model.registers.max(edge.register);
        model.edges.push(edge);
    }
    tidy(model);
}

/// Where the number is dropped, it can be dropped by way of another register.
/// Where a locally fresh edge keeps it, a globally fresh one takes no other
/// numbers and does the same with them.
fn double(model: &Model, edge: &Edge) -> Option<Edge> {
    let to_set = model.set(edge.to);
    let is_dropped = |register: &u8| !to_set.contains(*register);
    match edge.kind {
        Kind::Known => None,
        _ if is_dropped(&edge.register) => {
            let mut others = (1..=MAX_REGISTERS as u8).filter(|&r| r != edge.register);
            others.find(is_dropped).map(|register| Edge { register, ..*edge })
        }
        Kind::LocallyFresh => Some(Edge { kind: Kind::GloballyFresh, ..*edge }),
        Kind::GloballyFresh => None,
    }
}
