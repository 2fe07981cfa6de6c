//! A script answered by original and model side by side.

use crate::answer::{Answer, Engine, Held};
use crate::by_model::ByModel;
use crate::by_original::ByOriginal;
use crate::script::{Call, line_of};

/// Counts of what was compared.
#[derive(Clone, Copy, Debug, Default, PartialEq, Eq)]
pub struct Tally {
    pub calls: u64,
    /// Answers that were compared, and of them refusals.
    pub answers: u64,
    pub refusals: u64,
    /// Calls that the original can't be asked, which the model has to refuse.
    pub unasked: u64,
    /// Calls that aren't defined for the original.
    pub beyond: u64,
    /// Whole builders and columns compared after a call.
    pub states: u64,
}

/// How the answers of original and model stand to each other.
#[derive(Clone, Copy, Debug, PartialEq, Eq)]
pub enum Verdict {
    Same,
    SameRefusal,
    Unasked,
    Beyond,
    Differ,
}

/// The verdict on two answers.
pub fn verdict(theirs: &Answer, ours: &Answer) -> Verdict {
    match (theirs, ours) {
        (Answer::Beyond, _) => Verdict::Beyond,
        (Answer::Unasked, Answer::Refused(..)) => Verdict::Unasked,
        (Answer::Refused(a, ..), Answer::Refused(b, ..)) if a == b => Verdict::SameRefusal,
        (a, b) if a == b => Verdict::Same,
        _ => Verdict::Differ,
    }
}

/// Whether what is held afterwards differs, where both say it.
pub fn states_differ(theirs: &Option<Held>, ours: &Option<Held>) -> bool {
    matches!((theirs, ours), (Some(a), Some(b)) if a != b)
}

/// Runs the script. A difference is answered as a text with the lines up to it.
pub fn compare(script: &[Call], tally: &mut Tally) -> Result<(), String> {
    let (mut original, mut model) = (ByOriginal::default(), ByModel::default());
    for (k, call) in script.iter().enumerate() {
        let (theirs, their_state) = original.call(call);
        let (ours, our_state) = model.call(call);
        let verdict = verdict(&theirs, &ours);
        tally.calls += 1;
        match verdict {
            Verdict::Beyond => {
                tally.beyond += 1;
                continue;
            }
            Verdict::Unasked => tally.unasked += 1,
            Verdict::SameRefusal => {
                tally.answers += 1;
                tally.refusals += 1;
            }
            Verdict::Same | Verdict::Differ => tally.answers += 1,
        }
        tally.states += (their_state.is_some() && our_state.is_some()) as u64;
        let states = states_differ(&their_state, &our_state);
        if verdict == Verdict::Differ || states {
            let lines: Vec<String> = script[..=k].iter().map(line_of).collect();
            let mut text = format!(
                "{}\n# original: {theirs}\n# model: {ours}\n",
                lines.join("\n")
            );
            if states {
                text += &format!("# original holds\n{}", their_state.unwrap());
                text += &format!("# model holds\n{}", our_state.unwrap());
            }
            return Err(text);
        }
    }
    Ok(())
}
