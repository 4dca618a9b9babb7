//! Writing one frame.

use crate::ffi;
use crate::{ChannelCount, MasterCount, Refusal, SetUp};

/// Where a writing stands. In the same run each call is given what the last one returned; a new run starts at
/// offset 0, with the left-over and the counts returned: `Place { offset: 0, ..place }`.
#[derive(Clone, Copy, Debug, Default, PartialEq, Eq)]
pub struct Place {
    /// Octets of the run that were written.
    pub offset: u32,
    /// Octets of the last filler packet that are still to be written, 0 to 6.
    pub left_over: u32,
    /// Count of the master channel for the next frame.
    pub master_count: MasterCount,
    /// Count of the virtual channel for the next frame.
    pub channel_count: ChannelCount,
}

impl Place {
    /// The beginning of a run, with nothing left over.
    pub fn first(master_count: MasterCount, channel_count: ChannelCount) -> Place {
        Place { offset: 0, left_over: 0, master_count, channel_count }
    }
}

/// What one frame is written from, besides set-up and run.
#[derive(Clone, Copy, Debug, PartialEq, Eq)]
pub struct Writing {
    /// Virtual channel, 0 to 7.
    pub channel: u32,
    /// The control word, if the frame shall have one.
    pub control_word: Option<u32>,
    /// Where the writing stands.
    pub place: Place,
}

/// Writes one frame of a run of whole packets into `output`, which has the frame's length, and says where the
/// next frame starts. At the run's end the frame is filled up; from there on, idle frames are written.
///
/// ```
/// use scowdeck::{write, ChannelCount, MasterCount, Place, SetUp, Writing};
///
/// let set_up = SetUp { length: 64, spacecraft: 5, error_control: true };
/// let run = [&[0x01, 0x23, 0xC0, 0x05, 0x00, 0x5F][..], &[7; 96]].concat();
/// let mut writing = Writing {
///     channel: 1,
///     control_word: Some(0xCAFE),
///     place: Place::first(MasterCount(0), ChannelCount(250)),
/// };
/// let mut frames = Vec::new();
/// while (writing.place.offset as usize) < run.len() {
///     let mut frame = [0; 64];
///     writing.place = write(&set_up, &writing, &run, &mut frame)?;
///     assert_eq!(scowdeck::syndrome(&frame), 0);
///     frames.push(frame);
/// }
/// assert_eq!(frames.len(), 2);
/// assert_eq!(writing.place.channel_count, ChannelCount(252));
/// # Ok::<(), scowdeck::Refusal>(())
/// ```
pub fn write(
    set_up: &SetUp,
    writing: &Writing,
    run: &[u8],
    output: &mut [u8],
) -> Result<Place, Refusal> {
    let place = writing.place;
    let mut answer = [0; ffi::WRITE_ANSWER];
    let number = ffi::write(
        set_up.length,
        set_up.spacecraft,
        u32::from(set_up.error_control),
        writing.channel,
        place.master_count.0,
        place.channel_count.0,
        u32::from(writing.control_word.is_some()),
        writing.control_word.unwrap_or(0),
        run,
        place.offset,
        place.left_over,
        output,
        &mut answer,
    );
    Refusal::of_answer(number)?;
    let [_, offset, left_over, master, channel] = answer;
    Ok(Place {
        offset,
        left_over,
        master_count: MasterCount(master as u8),
        channel_count: ChannelCount(channel as u8),
    })
}
