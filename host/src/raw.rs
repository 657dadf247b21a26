//! The calls into the proved archives. Every `unsafe` of this crate stands in this file.
//!
//! A slice of the proved code is two words here: where it begins, and how many elements it has. What holds for every call
//! below: each pointer and length come from one live slice, so they are not null, are aligned, and span memory that may be
//! read (and, where the slice is borrowed mutably, written) for the whole call; what is borrowed mutably shares no byte with
//! anything else lent; the functions keep no pointer, and their proofs say that they touch nothing outside what they are
//! lent and come back for every content.

#[cfg(feature = "inplace")]
pub use inplace::*;
#[cfg(feature = "library")]
pub use listing::list;

/// liblisting.a: all texts in, one listing out.
#[cfg(feature = "library")]
mod listing {
    use crate::Listing;

    extern "C" {
        fn cedarlash_list(
            text: *const u8,
            text_len: usize,
            ends: *const usize,
            ends_len: usize,
            out: *mut u8,
            out_len: usize,
        ) -> Listing;
    }

    /// The proved listing of `text`, cut at `ends`, written to `out`.
    pub fn list(text: &[u8], ends: &[usize], out: &mut [u8]) -> Listing {
        // SAFETY: as said at the head of this file. `Listing` has the layout that the archive's own `#[repr(C)]` struct has.
        unsafe { cedarlash_list(text.as_ptr(), text.len(), ends.as_ptr(), ends.len(), out.as_mut_ptr(), out.len()) }
    }
}

/// libinplace.a: a run kept in place by its caller, and the readers.
#[cfg(feature = "inplace")]
mod inplace {
    use crate::Base;
    use std::mem::offset_of;
    use std::slice::from_ref;

    /// How a run stands, in numbers.
    #[repr(C)]
    #[derive(Clone, Copy, Debug, PartialEq, Eq)]
    pub struct Mark {
        pub kind: u64,
        pub first: u64,
        pub second: u64,
        pub third: u64,
    }

    /// What a run has fixed from its start.
    #[repr(C)]
    #[derive(Clone, Copy, Debug, PartialEq, Eq)]
    pub struct Settings {
        pub streams: usize,
        pub chroms: usize,
        pub room: usize,
    }

    /// A run as the proved calls keep it. Any content is a run. It holds no address, so it may be moved between calls.
    #[repr(C)]
    #[derive(Clone, Copy, Debug, PartialEq, Eq)]
    pub struct Run {
        pub chrom: [u64; 8],
        pub start: [u64; 8],
        pub stop: [u64; 8],
        pub row: [u64; 8],
        pub ended: [u64; 8],
        pub next: [usize; 8],
        pub from: [usize; 8],
        pub to: [usize; 8],
        pub settings: Settings,
        pub head: usize,
        pub len: usize,
        pub place: u64,
        pub mark: Mark,
    }

    impl Run {
        /// The run of no streams, which answers 1 to every base.
        pub const NONE: Run = Run {
            chrom: [0; 8],
            start: [0; 8],
            stop: [0; 8],
            row: [0; 8],
            ended: [0; 8],
            next: [0; 8],
            from: [0; 8],
            to: [0; 8],
            settings: Settings { streams: 0, chroms: 0, room: 0 },
            head: 0,
            len: 0,
            place: 0,
            mark: Mark { kind: 0, first: 0, second: 0, third: 0 },
        };
    }

    /// A place for a record that waits: stream, row, start and stop.
    pub type Slot = [u64; 4];

    /// A record of an answer: stream and row.
    pub type Found = [u64; 2];

    /// What was offered: `any` is 1 where a place is. All is 0 where none is.
    #[repr(C)]
    #[derive(Clone, Copy, Debug, PartialEq, Eq)]
    pub struct Offered {
        pub any: u64,
        pub chrom: u64,
        pub stop: u64,
    }

    /// What a base got that got no records: the refusal, and of 7 and 8 stream and row. What is not named is 0, and all is where
    /// nothing stopped the bases.
    #[repr(C)]
    #[derive(Clone, Copy, Debug, PartialEq, Eq)]
    pub struct Stopped {
        pub refusal: u64,
        pub stream: u64,
        pub row: u64,
    }

    /// What bases came to that were given one after the other: how many were answered, how many records these have together,
    /// what was offered after the last of them, and what stopped them, where the next one was given and got no records.
    #[repr(C)]
    #[derive(Clone, Copy, Debug, PartialEq, Eq)]
    pub struct Swept {
        pub bases: usize,
        pub records: usize,
        pub offer: Offered,
        pub last: Stopped,
    }

    /// How a reading ended: the refusal's number or 0, and the rows ahead of the end.
    #[repr(C)]
    #[derive(Clone, Copy, Debug, PartialEq, Eq)]
    pub struct Tally {
        pub refusal: u64,
        pub rows: usize,
    }

    /// Stops the build unless a struct has this size, and its fields stand at these places.
    macro_rules! laid {
        ($name:ty, $size:literal: $($field:ident at $place:literal),+) => {
            const _: () = assert!(size_of::<$name>() == $size && align_of::<$name>() == 8);
            $(const _: () = assert!(offset_of!($name, $field) == $place);)+
        };
    }

    // The layouts that the archive's own `#[repr(C)]` structs have: words alone, with nothing between them.
    laid!(Settings, 24: streams at 0, chroms at 8, room at 16);
    laid!(Mark, 32: kind at 0, first at 8, second at 16, third at 24);
    laid!(Run, 592: chrom at 0, start at 64, stop at 128, row at 192, ended at 256, next at 320, from at 384, to at 448,
        settings at 512, head at 536, len at 544, place at 552, mark at 560);
    laid!(Offered, 24: any at 0, chrom at 8, stop at 16);
    laid!(Stopped, 24: refusal at 0, stream at 8, row at 16);
    laid!(Swept, 64: bases at 0, records at 8, offer at 16, last at 40);
    laid!(Tally, 16: refusal at 0, rows at 8);
    const _: () = assert!(size_of::<usize>() == 8 && size_of::<Slot>() == 32 && size_of::<Found>() == 16);

    // Here and below a slice's two words stand on one line.
    #[rustfmt::skip]
    extern "C" {
        fn cedarlash_begin(
            run: *mut Run,
            settings: Settings,
            from: *const usize, from_len: usize,
            to: *const usize, to_len: usize,
            text: *const u8, text_len: usize,
            names_from: *const usize, names_from_len: usize,
            names_to: *const usize, names_to_len: usize,
            chrom: *const u64, chrom_len: usize,
            start: *const u64, start_len: usize,
            stop: *const u64, stop_len: usize,
        ) -> u64;
        fn cedarlash_give(
            run: *mut Run,
            bchrom: *const u64, bchrom_len: usize,
            bstart: *const u64, bstart_len: usize,
            bstop: *const u64, bstop_len: usize,
            chrom: *const u64, chrom_len: usize,
            start: *const u64, start_len: usize,
            stop: *const u64, stop_len: usize,
            lengths: *const u64, lengths_len: usize,
            queue: *mut Slot, queue_len: usize,
            answers: *mut Found, answers_len: usize,
            counts: *mut usize, counts_len: usize,
        ) -> Swept;
        fn cedarlash_read_list(
            text: *const u8, text_len: usize,
            from: *mut usize, from_len: usize,
            to: *mut usize, to_len: usize,
            len: *mut u64, len_len: usize,
        ) -> Tally;
        fn cedarlash_read_rows(
            text: *const u8, text_len: usize,
            list: *const u8, list_len: usize,
            from: *const usize, from_len: usize,
            to: *const usize, to_len: usize,
            chrom: *mut u64, chrom_len: usize,
            start: *mut u64, start_len: usize,
            stop: *mut u64, stop_len: usize,
        ) -> Tally;
        fn cedarlash_check_list(
            text: *const u8, text_len: usize,
            from: *const usize, from_len: usize,
            to: *const usize, to_len: usize,
        ) -> u64;
    }

    /// The chromosomes' names: where each begins and ends in a text.
    #[derive(Clone, Copy)]
    pub struct Names<'a> {
        pub text: &'a [u8],
        pub from: &'a [usize],
        pub to: &'a [usize],
    }

    /// Rows in columns, to be read.
    #[derive(Clone, Copy)]
    pub struct Cols<'a> {
        pub chrom: &'a [u64],
        pub start: &'a [u64],
        pub stop: &'a [u64],
    }

    /// Reads a chromosome list to where each name begins and ends, and its length.
    #[rustfmt::skip]
    pub fn read_list(text: &[u8], from: &mut [usize], to: &mut [usize], len: &mut [u64]) -> Tally {
        assert!(from.len() == to.len() && from.len() == len.len(), "columns of one length");
        // SAFETY: as said at the head of this file; the three columns are borrowed mutably, so they share no byte.
        unsafe {
            cedarlash_read_list(
                text.as_ptr(), text.len(),
                from.as_mut_ptr(), from.len(),
                to.as_mut_ptr(), to.len(),
                len.as_mut_ptr(), len.len(),
            )
        }
    }

    /// Whether the names are such that a run can begin: 0, 1 or 2.
    #[rustfmt::skip]
    pub fn check_list(names: Names) -> u64 {
        assert!(names.from.len() == names.to.len(), "columns of one length");
        // SAFETY: as said at the head of this file; nothing is written.
        unsafe {
            cedarlash_check_list(
                names.text.as_ptr(), names.text.len(),
                names.from.as_ptr(), names.from.len(),
                names.to.as_ptr(), names.to.len(),
            )
        }
    }

    /// Reads BED text to columns.
    #[rustfmt::skip]
    pub fn read_rows(text: &[u8], names: Names, chrom: &mut [u64], start: &mut [u64], stop: &mut [u64]) -> Tally {
        assert!(names.from.len() == names.to.len(), "columns of one length");
        assert!(chrom.len() == start.len() && chrom.len() == stop.len(), "columns of one length");
        // SAFETY: as said at the head of this file; the three columns are borrowed mutably, so they share no byte with
        // each other, the text or the names.
        unsafe {
            cedarlash_read_rows(
                text.as_ptr(), text.len(),
                names.text.as_ptr(), names.text.len(),
                names.from.as_ptr(), names.from.len(),
                names.to.as_ptr(), names.to.len(),
                chrom.as_mut_ptr(), chrom.len(),
                start.as_mut_ptr(), start.len(),
                stop.as_mut_ptr(), stop.len(),
            )
        }
    }

    /// The calls on a run as they are, for whatever is lent: lengths that do not fit are theirs to refuse, by 1.
    pub mod any {
        use super::*;

        /// Begins a run in `run`: 0, or why not, in which case `run` is the run of no streams.
        #[rustfmt::skip]
        pub fn begin(run: &mut Run, settings: Settings, from: &[usize], to: &[usize], names: Names, cols: Cols) -> u64 {
            // SAFETY: as said at the head of this file; `run` is borrowed mutably and has the archive's layout, as
            // `settings` has, which goes by the C convention.
            unsafe {
                cedarlash_begin(
                    run,
                    settings,
                    from.as_ptr(), from.len(),
                    to.as_ptr(), to.len(),
                    names.text.as_ptr(), names.text.len(),
                    names.from.as_ptr(), names.from.len(),
                    names.to.as_ptr(), names.to.len(),
                    cols.chrom.as_ptr(), cols.chrom.len(),
                    cols.start.as_ptr(), cols.start.len(),
                    cols.stop.as_ptr(), cols.stop.len(),
                )
            }
        }

        /// Gives bases to the run, one or many, one after the other, until one gets no records or fewer answer rows are left than the
        /// room. The records stand at the front of `answers` afterwards, those of one base behind those of the base ahead,
        /// and the counts at the front of `counts`, which has a place for each base.
        #[inline(always)]
        #[rustfmt::skip]
        pub fn give(
            run: &mut Run,
            bases: Cols,
            cols: Cols,
            lengths: &[u64],
            queue: &mut [Slot],
            answers: &mut [Found],
            counts: &mut [usize],
        ) -> Swept {
            // SAFETY: as said at the head of this file; `run`, the queue's slots, the answer rows and the counts are borrowed
            // mutably, so they share no byte with each other or with what is read. Every content of `run` is a run to the archive.
            unsafe {
                cedarlash_give(
                    run,
                    bases.chrom.as_ptr(), bases.chrom.len(),
                    bases.start.as_ptr(), bases.start.len(),
                    bases.stop.as_ptr(), bases.stop.len(),
                    cols.chrom.as_ptr(), cols.chrom.len(),
                    cols.start.as_ptr(), cols.start.len(),
                    cols.stop.as_ptr(), cols.stop.len(),
                    lengths.as_ptr(), lengths.len(),
                    queue.as_mut_ptr(), queue.len(),
                    answers.as_mut_ptr(), answers.len(),
                    counts.as_mut_ptr(), counts.len(),
                )
            }
        }
    }

    impl<'a> Cols<'a> {
        /// A base as columns of one row.
        pub fn of_one(base: &'a Base) -> Self {
            Cols { chrom: from_ref(&base.chrom), start: from_ref(&base.start), stop: from_ref(&base.stop) }
        }

        /// Stops unless the three are of one length.
        fn assert_even(self) {
            assert!(
                self.chrom.len() == self.start.len() && self.chrom.len() == self.stop.len(),
                "columns of one length"
            );
        }
    }

    /// [`any::begin`] for as many streams as ranges and as many chromosomes as names.
    pub fn begin(run: &mut Run, from: &[usize], to: &[usize], room: usize, names: Names, cols: Cols) -> u64 {
        assert!(from.len() == to.len() && names.from.len() == names.to.len(), "columns of one length");
        cols.assert_even();
        any::begin(run, Settings { streams: from.len(), chroms: names.from.len(), room }, from, to, names, cols)
    }

    /// [`any::give`] where all lengths fit.
    #[inline(always)]
    pub fn give(
        run: &mut Run,
        bases: Cols,
        cols: Cols,
        lengths: &[u64],
        queue: &mut [Slot],
        answers: &mut [Found],
        counts: &mut [usize],
    ) -> Swept {
        bases.assert_even();
        assert!(counts.len() >= bases.chrom.len(), "a count for each base");
        cols.assert_even();
        assert!(answers.len() >= queue.len(), "answer rows as many as the room");
        any::give(run, bases, cols, lengths, queue, answers, counts)
    }
}
