//! The run: episode after episode, each from a seed of its own.

use crate::boundary::Boundary;
use crate::calls::Checked;
use crate::cover::Table;
use crate::pair::Pair;
use crate::random::Random;
use crate::scenes::{frame_part, lone, small, stream, wrapper, writing, Stage};

pub struct Plan {
    pub seed: u64,
    /// At least so many calls are made.
    pub calls: u64,
    /// One episode alone, to repeat it.
    pub only: Option<u64>,
}

impl Default for Plan {
    fn default() -> Plan {
        Plan { seed: 7, calls: 1_500_000, only: None }
    }
}

#[derive(Default)]
pub struct Outcome {
    pub calls: u64,
    pub episodes: u64,
    pub table: Table,
    /// The first difference: episode, call within it, what and on which inputs.
    pub difference: Option<String>,
}

pub fn run(left: &dyn Boundary, right: &dyn Boundary, plan: &Plan) -> Outcome {
    let mut outcome = Outcome::default();
    let mut episode = plan.only.unwrap_or(0);
    while outcome.difference.is_none() {
        let seed = plan.seed.wrapping_mul(1 << 32).wrapping_add(episode);
        let mut pair = Pair::new(left, right, seed);
        let played = play(&mut pair, &mut outcome.table, seed, episode);
        outcome.calls += pair.calls;
        outcome.episodes += 1;
        if let Err(what) = played {
            let place = format!("seed {}, episode {episode}, call {}", plan.seed, pair.calls);
            outcome.difference = Some(format!("{place}: {what}"));
        }
        if plan.only.is_some() || outcome.calls >= plan.calls {
            break;
        }
        episode += 1;
    }
    outcome
}

fn play(pair: &mut Pair, table: &mut Table, seed: u64, episode: u64) -> Checked<()> {
    let mut stage = Stage { random: Random::new(!seed), pair, table };
    match episode % 22 {
        0..=8 => stream::play(&mut stage),
        9..=13 => lone::play(&mut stage),
        14..=17 => writing::play(&mut stage),
        18..=19 => frame_part::play(&mut stage),
        20 => small::play(&mut stage),
        _ => wrapper::play(&mut stage),
    }
}
