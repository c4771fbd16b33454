//! The calls of `include/lineage.h`, one to one, on slices.
//!
//! The lists that a call changes are `&mut`, so no two of them overlap, as the header asks. Each call takes lists of
//! any length and any contents; what it cannot take it refuses. It returns `false`, having written nothing, where
//! `reply` is not three numbers long, or four for [`lengthen_each`], or the point of [`window`] not two.

/// A call's reply: {0, number, lot} where it refused, otherwise as the call says.
pub type Reply = [i64; 3];

/// The reply of [`lengthen_each`]: {0, number, lot, place} where it refused, otherwise {1, width, height, 0}.
pub type EachReply = [i64; 4];

/// The lists of a sheet, each with a number for every lot: owned, or lent to a call.
#[derive(Clone, Debug, PartialEq, Eq)]
pub struct Lists<L = Vec<u32>> {
    /// How many times its slope each lot's edge is long.
    pub times: L,
    /// Each lot's x.
    pub x: L,
    /// Each lot's y.
    pub y: L,
    /// 1 where the lot's edge is held, otherwise 0.
    pub held: L,
}

impl<L> Lists<L> {
    /// The lists, in the order in which calls take them.
    pub fn each(&self) -> [&L; 4] {
        [&self.times, &self.x, &self.y, &self.held]
    }

    /// The same, to be changed.
    pub fn each_mut(&mut self) -> [&mut L; 4] {
        [&mut self.times, &mut self.x, &mut self.y, &mut self.held]
    }
}

impl Lists {
    /// The lists of n lots, all 0, for layout to fill.
    pub fn of(n: usize) -> Lists {
        Lists { times: vec![0; n], x: vec![0; n], y: vec![0; n], held: vec![0; n] }
    }

    /// What a call borrows.
    pub fn lent(&mut self) -> Lists<&mut [u32]> {
        Lists { times: &mut self.times, x: &mut self.x, y: &mut self.y, held: &mut self.held }
    }

    /// What a call borrows that only reads them.
    pub fn read(&self) -> Lists<&[u32]> {
        Lists { times: &self.times, x: &self.x, y: &self.y, held: &self.held }
    }
}

/// The calls on slices, over C functions that have these names and the header's types. The benchmark has a second set,
/// over a plain C version, and the small cabinet one of calls that change a sheet alone. These differ in what they
/// change, the drawing (times, x and y) or held, and in what stands between their work list and their reply: numbers,
/// or, after a semicolon, lists that they read.
#[doc(hidden)]
#[macro_export]
#[rustfmt::skip]
macro_rules! calls {
    (
        [$(
            $on_sheet:ident = $sheet_call:ident(
                $drawing:tt, $held:tt $(, $more:ident: $number:ty)* $(; $($list:ident),*)?
            )
        ),*]
        $(
            , $column:ident, $direction:ident, $numbers:ident, $check:ident, $tallest:ident, $window:ident, $read:ident,
            $write:ident
        )?
    ) => {
        extern "C" {
            $(fn $sheet_call(
                balanced: bool, parent: *const u32, parents: usize, rank: *const u32, ranks: usize,
                times: *$drawing u32, times_length: usize, x: *$drawing u32, x_length: usize, y: *$drawing u32,
                y_length: usize, held: *$held u32, held_length: usize, work: *mut u32, work_length: usize,
                $($more: $number,)* $($($list: *const u32, _: usize,)*)? reply: *mut i64, reply_length: usize,
            ) -> bool;)*
            $(
            fn $column(
                balanced: bool, parent: *const u32, parents: usize, rank: *const u32, ranks: usize,
                times: *const u32, times_length: usize, x: *const u32, x_length: usize, y: *const u32,
                y_length: usize, held: *const u32, held_length: usize, work: *mut u32, work_length: usize, lot: u32,
                column: u32, reply: *mut i64, reply_length: usize,
            ) -> bool;
            fn $direction(
                balanced: bool, parent: *const u32, parents: usize, rank: *const u32, ranks: usize, work: *mut u32,
                work_length: usize, from: u32, to: u32, reply: *mut i64, reply_length: usize,
            ) -> bool;
            fn $numbers(
                parent: *const u32, parents: usize, rank: *const u32, ranks: usize, first: *mut u32,
                first_length: usize, last: *mut u32, last_length: usize, work: *mut u32, work_length: usize,
                reply: *mut i64, reply_length: usize,
            ) -> bool;
            fn $check(
                parent: *const u32, parents: usize, rank: *const u32, ranks: usize, x: *const u32, x_length: usize,
                y: *const u32, y_length: usize, work: *mut u32, work_length: usize, reply: *mut i64,
                reply_length: usize,
            ) -> bool;
            fn $tallest(
                n: u32, parent: *mut u32, parents: usize, rank: *mut u32, ranks: usize, reply: *mut i64,
                reply_length: usize,
            ) -> bool;
            fn $window(
                x: u32, y: u32, a: u32, b: u32, m: u32, point: *mut f64, point_length: usize, reply: *mut i64,
                reply_length: usize,
            ) -> bool;
            fn $read(
                bytes: *const u8, bytes_length: usize, parent: *mut u32, parents: usize, rank: *mut u32, ranks: usize,
                work: *mut u32, work_length: usize, reply: *mut i64, reply_length: usize,
            ) -> bool;
            fn $write(
                parent: *const u32, parents: usize, rank: *const u32, ranks: usize, bytes: *mut u8,
                bytes_length: usize, work: *mut u32, work_length: usize, reply: *mut i64, reply_length: usize,
            ) -> bool;
            )?
        }

        $(
        /// {1, width, height}, and a 0 behind it where the reply is four long.
        #[allow(clippy::too_many_arguments)]
        pub fn $on_sheet(
            balanced: bool, parent: &[u32], rank: &[u32], s: $crate::raw::Lists<&mut [u32]>, work: &mut [u32],
            $($more: $number,)* $($($list: &[u32],)*)? reply: &mut [i64],
        ) -> bool {
            // SAFETY: each address has its slice's length, the slices live through the call, and those that it writes
            // are exclusive.
            unsafe {
                $sheet_call(
                    balanced, parent.as_ptr(), parent.len(), rank.as_ptr(), rank.len(), s.times.as_mut_ptr(),
                    s.times.len(), s.x.as_mut_ptr(), s.x.len(), s.y.as_mut_ptr(), s.y.len(), s.held.as_mut_ptr(),
                    s.held.len(), work.as_mut_ptr(), work.len(), $($more,)* $($($list.as_ptr(), $list.len(),)*)?
                    reply.as_mut_ptr(), reply.len(),
                )
            }
        }
        )*

        $(
        /// {1, count, 0}, or {2, 0, 0} where no count brings the lot to the column.
        #[allow(clippy::too_many_arguments)]
        pub fn column(
            balanced: bool, parent: &[u32], rank: &[u32], s: $crate::raw::Lists<&[u32]>, work: &mut [u32], lot: u32,
            column: u32, reply: &mut [i64],
        ) -> bool {
            // SAFETY: as in the calls on a sheet.
            unsafe {
                $column(
                    balanced, parent.as_ptr(), parent.len(), rank.as_ptr(), rank.len(), s.times.as_ptr(),
                    s.times.len(), s.x.as_ptr(), s.x.len(), s.y.as_ptr(), s.y.len(), s.held.as_ptr(), s.held.len(),
                    work.as_mut_ptr(), work.len(), lot, column, reply.as_mut_ptr(), reply.len(),
                )
            }
        }

        /// {1, d, e}.
        pub fn direction(
            balanced: bool, parent: &[u32], rank: &[u32], work: &mut [u32], from: u32, to: u32, reply: &mut [i64],
        ) -> bool {
            // SAFETY: as in the calls on a sheet.
            unsafe {
                $direction(
                    balanced, parent.as_ptr(), parent.len(), rank.as_ptr(), rank.len(), work.as_mut_ptr(), work.len(),
                    from, to, reply.as_mut_ptr(), reply.len(),
                )
            }
        }

        /// {1, n, 0}.
        pub fn post_numbers(
            parent: &[u32], rank: &[u32], first: &mut [u32], last: &mut [u32], work: &mut [u32], reply: &mut [i64],
        ) -> bool {
            // SAFETY: as in the calls on a sheet.
            unsafe {
                $numbers(
                    parent.as_ptr(), parent.len(), rank.as_ptr(), rank.len(), first.as_mut_ptr(), first.len(),
                    last.as_mut_ptr(), last.len(), work.as_mut_ptr(), work.len(), reply.as_mut_ptr(), reply.len(),
                )
            }
        }

        /// {1, 0, 0} where the drawing is monotone, {2, u, v} where the path from u to v turns.
        pub fn check(
            parent: &[u32], rank: &[u32], x: &[u32], y: &[u32], work: &mut [u32], reply: &mut [i64],
        ) -> bool {
            // SAFETY: as in the calls on a sheet.
            unsafe {
                $check(
                    parent.as_ptr(), parent.len(), rank.as_ptr(), rank.len(), x.as_ptr(), x.len(), y.as_ptr(),
                    y.len(), work.as_mut_ptr(), work.len(), reply.as_mut_ptr(), reply.len(),
                )
            }
        }

        /// {1, width, height}.
        pub fn tallest(n: u32, parent: &mut [u32], rank: &mut [u32], reply: &mut [i64]) -> bool {
            // SAFETY: as in the calls on a sheet.
            unsafe {
                $tallest(
                    n, parent.as_mut_ptr(), parent.len(), rank.as_mut_ptr(), rank.len(), reply.as_mut_ptr(),
                    reply.len(),
                )
            }
        }

        /// {1, 0, 0} where the place is shown, with its position in `point`; {2, 0, 0} where it lies outside.
        pub fn window(x: u32, y: u32, a: u32, b: u32, m: u32, point: &mut [f64], reply: &mut [i64]) -> bool {
            // SAFETY: as in the calls on a sheet.
            unsafe { $window(x, y, a, b, m, point.as_mut_ptr(), point.len(), reply.as_mut_ptr(), reply.len()) }
        }

        /// {1, n, 0}.
        pub fn read_tree(
            bytes: &[u8], parent: &mut [u32], rank: &mut [u32], work: &mut [u32], reply: &mut [i64],
        ) -> bool {
            // SAFETY: as in the calls on a sheet.
            unsafe {
                $read(
                    bytes.as_ptr(), bytes.len(), parent.as_mut_ptr(), parent.len(), rank.as_mut_ptr(), rank.len(),
                    work.as_mut_ptr(), work.len(), reply.as_mut_ptr(), reply.len(),
                )
            }
        }

        /// {1, bytes, 0}.
        pub fn write_tree(
            parent: &[u32], rank: &[u32], bytes: &mut [u8], work: &mut [u32], reply: &mut [i64],
        ) -> bool {
            // SAFETY: as in the calls on a sheet.
            unsafe {
                $write(
                    parent.as_ptr(), parent.len(), rank.as_ptr(), rank.len(), bytes.as_mut_ptr(), bytes.len(),
                    work.as_mut_ptr(), work.len(), reply.as_mut_ptr(), reply.len(),
                )
            }
        }
        )?
    };
}

calls!(
    [
        layout = lineage_layout(mut, mut),
        lengthen = lineage_lengthen(mut, const, lot: u32, count: u32),
        shorten = lineage_shorten(mut, const, lot: u32, count: u32),
        lengthen_each = lineage_lengthen_each(mut, const; lots, counts),
        hold = lineage_hold(const, mut, lot: u32, hold: bool)
    ],
    lineage_column,
    lineage_direction,
    lineage_post_numbers,
    lineage_check,
    lineage_tallest,
    lineage_window,
    lineage_read_tree,
    lineage_write_tree
);

calls!([
    small_layout = lineage_small_layout(mut, mut),
    small_lengthen = lineage_small_lengthen(mut, const, lot: u32, count: u32),
    small_shorten = lineage_small_shorten(mut, const, lot: u32, count: u32)
]);

/// A call that makes a sheet.
pub type Layout = fn(bool, &[u32], &[u32], Lists<&mut [u32]>, &mut [u32], &mut [i64]) -> bool;

/// A call that makes the edge of a lot longer or shorter, by a count.
pub type Stretch = fn(bool, &[u32], &[u32], Lists<&mut [u32]>, &mut [u32], u32, u32, &mut [i64]) -> bool;

/// The calls that each cabinet has of its own.
#[derive(Debug)]
pub struct Entries {
    /// Writes a fresh sheet.
    pub layout: Layout,
    /// Makes an edge longer.
    pub lengthen: Stretch,
    /// Makes it shorter.
    pub shorten: Stretch,
}

/// The large cabinet's.
pub static LARGE: Entries = Entries { layout, lengthen, shorten };

/// The small cabinet's.
pub static SMALL: Entries = Entries { layout: small_layout, lengthen: small_lengthen, shorten: small_shorten };

extern "C" {
    fn lineage_stated_nodes(bytes: *const u8, bytes_length: usize) -> u32;
}

/// The n that a tree file states, or 0 where it has fewer than 4 bytes.
pub fn stated_nodes(bytes: &[u8]) -> u32 {
    // SAFETY: as in the calls on a sheet.
    unsafe { lineage_stated_nodes(bytes.as_ptr(), bytes.len()) }
}
