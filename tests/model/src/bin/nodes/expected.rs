//! What a call on a node is expected to answer and to leave.

use crate::cases::{area, Case, Lent, Outcome, GUARD};
use crate::sound::is_sound;
use crate::stored::Stored;
use charging_model::batch::{batch_of_sound, Batched};
use charging_model::step::step_of_sound;

/// "13: node breaks a rule under "A sound node"", before all other rows; what
/// follows on a sound node is the model's.
pub fn expected(case: &Case) -> Outcome {
    let sound = is_sound(&case.node);
    // A sound node is all in what the model holds, and is sound there too.
    let view = case.node.view();
    assert_eq!(sound, view.sound() && Stored::store(&view) == case.node);
    outcome(case, sound)
}

/// The outcome, once it is known whether the node is sound.
pub fn outcome(case: &Case, sound: bool) -> Outcome {
    if sound {
        of_sound(case)
    } else {
        refused(case, 13)
    }
}

/// "any node, clock included, is as given, nothing is written and the written
/// length is 0"; of a batch "nothing applied"
pub fn refused(case: &Case, answer: u8) -> Outcome {
    let (node, area) = (case.node.octets(), area(case.room, case.fill));
    Outcome { answer, applied: 0, written: 0, node, area }
}

/// What the model makes of a sound node. An event applies no pair.
pub fn done(case: &Case) -> Batched {
    let node = case.node.view();
    match &case.lent {
        Lent::Event(event) => {
            let step = step_of_sound(&node, event, case.room);
            let (answer, node, output, records) =
                (step.answer, step.node, step.output, step.records);
            Batched { answer, applied: 0, node, output, records }
        }
        Lent::Batch(batch) => batch_of_sound(&node, batch, case.room),
    }
}

/// "output from the buffer's start, all later octets as before", after a
/// refusal too.
pub fn of_sound(case: &Case) -> Outcome {
    let done = done(case);
    let mut area = area(case.room, case.fill);
    area[GUARD..GUARD + done.output.len()].copy_from_slice(&done.output);
    Outcome {
        answer: done.answer,
        applied: done.applied as u64,
        written: done.output.len() as u64,
        node: Stored::store(&done.node).octets(),
        area,
    }
}
