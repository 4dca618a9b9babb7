//! Writing one frame.

use crate::closing::{field, surround, Closing};
use crate::counts::{ChannelCount, MasterCount};
use crate::frame::{IDLE_DATA, NO_START};
use crate::packet::{size, Size};
use crate::refusal::{refuse_if, Refusal};
use crate::set_up::SetUp;

const RUN_MOST: usize = 65_536;
const LEFT_OVER_MOST: u32 = 6;
const FILL: u8 = 0x55;
const FILLER: [u8; 7] = [0x07, 0xFF, 0xC0, 0x00, 0x00, 0x00, FILL];

/// Where a writing stands: goes from call to call.
#[derive(Clone, Copy, Debug, Default, PartialEq, Eq)]
pub struct Place {
    pub offset: u32,
    pub left_over: u32,
    pub master_count: MasterCount,
    pub channel_count: ChannelCount,
}

/// What one frame is written from, besides set-up and run.
#[derive(Clone, Copy, Debug, PartialEq, Eq)]
pub struct Writing {
    pub channel: u32,
    pub control_word: Option<u32>,
    pub place: Place,
}

/// Writes one frame into the output and says where the next one starts. A refused call changes nothing.
pub fn write(
    set_up: &SetUp,
    writing: &Writing,
    run: &[u8],
    output: &mut [u8],
) -> Result<Place, Refusal> {
    test(set_up, writing, run, output)?;
    let Writing { channel, control_word, place } = *writing;
    let Place { master_count, channel_count, .. } = place;
    let field = &mut output[field(set_up, control_word)];
    let pointer = u32::from(pointer(&place, run, field.len()));
    let (offset, left_over) = lay(&place, run, field);
    let closing = Closing { channel, master_count, channel_count, control_word, pointer };
    surround(set_up, &closing, output);
    Ok(Place {
        offset: offset as u32,
        left_over: left_over as u32,
        master_count: master_count.next(),
        channel_count: channel_count.next(),
    })
}

fn test(set_up: &SetUp, writing: &Writing, run: &[u8], output: &[u8]) -> Result<(), Refusal> {
    let Place { offset, left_over, .. } = writing.place;
    set_up.test()?;
    refuse_if(writing.channel > 7, Refusal::Channel)?;
    refuse_if(run.len() > RUN_MOST, Refusal::RunTooLong)?;
    refuse_if(boundary_from(run, run.len()).is_none(), Refusal::RunNoChain)?;
    refuse_if(offset as usize > run.len(), Refusal::Offset)?;
    let at_an_end = offset == 0 || offset as usize == run.len();
    let odd = left_over > LEFT_OVER_MOST || left_over != 0 && !at_an_end;
    refuse_if(odd, Refusal::LeftOver)?;
    refuse_if(output.len() != set_up.octets(), Refusal::OutputLength)
}

/// The first packet boundary at or after a place; none where whole packets do not lead so far.
fn boundary_from(run: &[u8], place: usize) -> Option<usize> {
    let mut at = 0;
    while at < place {
        match size(&run[at..]) {
            Size::Total(total) if total <= run.len() - at => at += total,
            _ => return None,
        }
    }
    Some(at)
}

/// 2046 if nothing is placed, else where the first packet starts, be it the filler after the run.
fn pointer(place: &Place, run: &[u8], d: usize) -> u16 {
    let offset = place.offset as usize;
    if place.left_over == 0 && offset == run.len() {
        return IDLE_DATA;
    }
    match boundary_from(run, offset).map(|at| place.left_over as usize + at - offset) {
        Some(start) if start < d => start as u16,
        _ => NO_START,
    }
}

/// Fills the data field; gives the new offset and the new left-over.
fn lay(place: &Place, run: &[u8], field: &mut [u8]) -> (usize, usize) {
    let tail = &FILLER[FILLER.len() - place.left_over as usize..];
    let begun = tail.len().min(field.len());
    let (first, room) = field.split_at_mut(begun);
    first.copy_from_slice(&tail[..begun]);
    let rest = &run[place.offset as usize..];
    let taken = rest.len().min(room.len());
    let (middle, room) = room.split_at_mut(taken);
    middle.copy_from_slice(&rest[..taken]);
    let offset = place.offset as usize + taken;
    if begun == 0 && taken == 0 {
        room.fill(FILL);
        return (offset, 0);
    }
    (offset, tail.len() - begun + fill(room))
}

/// Fills the room after the run with one idle packet; gives how many of its octets did not fit.
fn fill(room: &mut [u8]) -> usize {
    match room.len() {
        0 => 0,
        n @ 1..=6 => {
            room.copy_from_slice(&FILLER[..n]);
            FILLER.len() - n
        }
        n => {
            room.fill(FILL);
            room[..4].copy_from_slice(&FILLER[..4]);
            room[4..6].copy_from_slice(&((n - 7) as u16).to_be_bytes());
            0
        }
    }
}
