//! The boundary's six functions, whoever answers them.

/// Length, spacecraft number, error control.
pub type SetUpWords = [u32; 3];

/// The numbers that go into a writing besides the set-up.
#[derive(Clone, Copy, Debug)]
pub struct WriteNumbers {
    pub channel: u32,
    pub master_count: u8,
    pub channel_count: u8,
    pub has_word: u32,
    pub word: u32,
    pub offset: u32,
    pub left_over: u32,
}

/// The numbers that go into a closing besides the set-up.
#[derive(Clone, Copy, Debug)]
pub struct CloseNumbers {
    pub channel: u32,
    pub master_count: u8,
    pub channel_count: u8,
    pub has_word: u32,
    pub word: u32,
    pub pointer: u32,
}

/// What is lent to a reading.
pub struct ReadLent<'a> {
    pub record: &'a mut [u32],
    pub store: &'a mut [u8],
    pub output: &'a mut [u8],
    pub frame: &'a [u8],
    pub answer: &'a mut [u32],
}

pub trait Boundary {
    fn read(&self, set_up: SetUpWords, lent: ReadLent) -> u32;
    fn write(
        &self,
        set_up: SetUpWords,
        numbers: &WriteNumbers,
        run: &[u8],
        output: &mut [u8],
        answer: &mut [u32],
    ) -> u32;
    fn open(&self, set_up: SetUpWords, frame: &[u8], answer: &mut [u32]) -> u32;
    fn close(&self, set_up: SetUpWords, numbers: &CloseNumbers, output: &mut [u8]) -> u32;
    fn busy(&self, record: &[u32], answer: &mut [u32]) -> u32;
    fn syndrome(&self, octets: &[u8]) -> u32;
}

macro_rules! boundary {
    ($(#[$doc:meta])* $name:ident, $functions:path) => {
        $(#[$doc])*
        pub struct $name;

        impl Boundary for $name {
            fn read(&self, [length, spacecraft, control]: SetUpWords, lent: ReadLent) -> u32 {
                use $functions as functions;
                let ReadLent { record, store, output, frame, answer } = lent;
                functions::read(length, spacecraft, control, record, store, output, frame, answer)
            }

            fn write(
                &self,
                [length, spacecraft, control]: SetUpWords,
                n: &WriteNumbers,
                run: &[u8],
                output: &mut [u8],
                answer: &mut [u32],
            ) -> u32 {
                use $functions as functions;
                functions::write(
                    length,
                    spacecraft,
                    control,
                    n.channel,
                    n.master_count,
                    n.channel_count,
                    n.has_word,
                    n.word,
                    run,
                    n.offset,
                    n.left_over,
                    output,
                    answer,
                )
            }

            fn open(
                &self,
                [length, spacecraft, control]: SetUpWords,
                frame: &[u8],
                answer: &mut [u32],
            ) -> u32 {
                use $functions as functions;
                functions::open(length, spacecraft, control, frame, answer)
            }

            fn close(
                &self,
                [length, spacecraft, control]: SetUpWords,
                n: &CloseNumbers,
                output: &mut [u8],
            ) -> u32 {
                use $functions as functions;
                functions::close(
                    length,
                    spacecraft,
                    control,
                    n.channel,
                    n.master_count,
                    n.channel_count,
                    n.has_word,
                    n.word,
                    n.pointer,
                    output,
                )
            }

            fn busy(&self, record: &[u32], answer: &mut [u32]) -> u32 {
                use $functions as functions;
                functions::busy(record, answer)
            }

            fn syndrome(&self, octets: &[u8]) -> u32 {
                use $functions as functions;
                functions::syndrome(octets)
            }
        }
    };
}

boundary!(
    /// The proved library.
    Archive,
    scowdeck::ffi
);
boundary!(
    /// The one in ordinary Rust.
    Plain,
    plain::words
);
