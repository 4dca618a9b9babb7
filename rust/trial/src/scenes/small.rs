//! The busy mask of any words, and the syndrome of any octets.

use super::Stage;
use crate::calls::Checked;
use crate::cover::Item;

pub fn play(stage: &mut Stage) -> Checked<()> {
    for _ in 0..stage.random.between(40, 120) {
        busy(stage)?;
        if stage.random.once_in(3) {
            syndrome(stage)?;
        }
    }
    Ok(())
}

fn busy(stage: &mut Stage) -> Checked<()> {
    let random = &mut stage.random;
    let n = if random.once_in(3) { random.below(41) } else { 32 };
    let bias = random.below(4) as u32;
    let words: Vec<u32> = (0..n)
        .map(|_| match random.below(8) {
            0 => random.half(),
            1 => 3,
            2 => 256 + bias,
            3 => 0,
            4 => 1,
            _ => bias,
        })
        .collect();
    let words = if random.once_in(8) { vec![bias; n] } else { words };
    let answer_words = if random.once_in(4) { random.below(7) } else { 3 };
    let mask = stage.pair.busy(&words, answer_words)?;
    stage.table.hit_if(mask == 0, Item::BusyNone);
    stage.table.hit_if(mask == 255, Item::BusyAll);
    stage.table.hit_if(mask != 0 && mask != 255, Item::BusySome);
    stage.table.hit_if(n < 32 && n % 4 != 0, Item::BusyShort);
    stage.table.hit_if(n > 32, Item::BusyLong);
    stage.table.hit_if(answer_words < 3, Item::BusyAnswerShort);
    Ok(())
}

fn syndrome(stage: &mut Stage) -> Checked<()> {
    let random = &mut stage.random;
    let n = match random.below(200) {
        0 => random.between(65_537, 70_000),
        1..=10 => 0,
        11..=40 => random.between(1, 4096),
        _ => random.between(1, 64),
    };
    let mut octets = random.octets(n);
    if random.once_in(3) {
        let field = plain::syndrome(&octets).to_be_bytes();
        octets.extend(field);
    }
    let syndrome = stage.pair.syndrome(&octets)?;
    stage.table.hit_if(octets.is_empty(), Item::SyndromeEmpty);
    stage.table.hit_if((1..=4096).contains(&octets.len()), Item::SyndromeShort);
    stage.table.hit_if(octets.len() > 65_536, Item::SyndromeLong);
    stage.table.hit_if(syndrome == 0, Item::SyndromeZero);
    Ok(())
}
