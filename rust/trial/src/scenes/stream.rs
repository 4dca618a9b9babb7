//! Several senders over one lossy link, record and store kept, with spoilt calls in between.

use super::Stage;
use crate::calls::{Checked, Read, ReadCall};
use crate::cover::Item;
use crate::faults::{refuse, spoil};
use crate::make::set_up;
use crate::sender::{Due, Sender, Sent};

struct Link {
    set_up: [u32; 3],
    senders: Vec<Sender>,
    /// Once in so many times a frame is lost.
    loss: usize,
    master: u8,
    /// Senders and link do what the paper's sender never does.
    wild: bool,
}

pub fn play(stage: &mut Stage) -> Checked<()> {
    let random = &mut stage.random;
    let wild = random.once_in(2);
    let channels = random.between(1, 8);
    let first = random.below(8);
    let senders =
        (0..channels).map(|i| Sender::new(random, ((first + i) % 8) as u8, wild)).collect();
    let loss = random.pick(&[3, 10, 40, 1000]);
    let mut link = Link { set_up: set_up(random), senders, loss, master: random.octet(), wild };
    let calls = random.between(60, 240);
    stage.pair.fresh();
    for _ in 0..calls {
        one_frame(stage, &mut link)?;
    }
    Ok(())
}

fn one_frame(stage: &mut Stage, link: &mut Link) -> Checked<()> {
    let i = stage.random.below(link.senders.len());
    let sent = link.senders[i].next(&mut stage.random, link.set_up, link.master);
    link.master = link.master.wrapping_add(1);
    let octets = sent.frame.octets(link.set_up[2] != 0);
    if stage.random.once_in(6) {
        spoilt_call(stage, link, &octets)?;
    }
    let sender = &mut link.senders[i];
    if stage.random.once_in(link.loss) && sender.lost() < 255 {
        sender.was_lost(&sent);
        return Ok(());
    }
    let mut call = ReadCall::new(link.set_up, octets);
    stage.vary_lent(&mut call);
    let read = stage.read(&call)?;
    note_sizes(stage, sender, &read);
    let after_loss = sender.lost() > 0;
    if !link.wild {
        let due = sender.arrived(&sent);
        check_due(stage, &sent, &read, &due, after_loss)?;
    }
    if stage.random.once_in(60) && link.wild {
        stage.read(&call)?;
    }
    Ok(())
}

/// A call that is to be refused, with the frame or with another.
fn spoilt_call(stage: &mut Stage, link: &mut Link, octets: &[u8]) -> Checked<()> {
    let mut call = ReadCall::new(link.set_up, octets.to_vec());
    stage.vary_lent(&mut call);
    let put = if link.wild { spoil } else { refuse };
    let spoilt = put(&mut stage.random, stage.pair, &mut call);
    let read = stage.read(&call)?;
    spoilt.reached(read.number).for_each(|item| stage.table.hit(item));
    spoilt.undo(stage.pair);
    if read.number == 0 && !link.wild {
        return Err(format!("both alike, but no refusal of a call that has a cause: {call:?}\n"));
    }
    Ok(())
}

fn note_sizes(stage: &mut Stage, sender: &Sender, read: &Read) {
    let oversize = read.words.is_some_and(|words| words[19] == 1);
    stage.table.hit_if(oversize && sender.under_way() == 4097, Item::Packet4097);
    stage.table.hit_if(oversize && sender.under_way() == 65_542, Item::Packet65542);
}

/// Demand 3, call by call: what is due is known from the sender and the losses alone.
fn check_due(stage: &mut Stage, sent: &Sent, read: &Read, due: &Due, lossy: bool) -> Checked<()> {
    let output = &stage.pair.output()[..due.packets.len()];
    let told = read.words.map(|words| [words[13], words[14], words[15], words[17], words[18]]);
    let wanted = [due.gap, due.delivered, due.idle, 0, 0];
    if read.number != 0 || output != due.packets || told.is_some_and(|told| told != wanted) {
        return Err(format!(
            "both alike, but not what the sender's packets call for: {} {told:?}, wanted {wanted:?}\n  {:?}\n",
            read.number, sent.frame
        ));
    }
    stage.table.hit_if(due.delivered > 0, Item::Due);
    stage.table.hit_if(due.delivered > 0 && lossy, Item::DueLossy);
    Ok(())
}
