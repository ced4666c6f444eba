//! The proved library through its C boundary. A slice passes as pointer and length.

use crate::keeper::{BadRow, Keeper};

extern "C" {
    fn keeper_format(medium: *mut u8, medium_len: usize, cells: u32, slots: u32) -> u32;
    fn keeper_recovery_start(
        medium: *const u8,
        medium_len: usize,
        current: *mut u64,
        current_len: usize,
        first: *mut u32,
        first_len: usize,
        last: *mut u32,
        last_len: usize,
        waiting: *const u8,
        waiting_len: usize,
        state: *mut u32,
        state_len: usize,
        reason: *mut u32,
        entry: *mut u32,
    ) -> u32;
    fn keeper_recovery_step(
        state: *mut u32,
        state_len: usize,
        medium: *mut u8,
        medium_len: usize,
        current: *const u64,
        current_len: usize,
        value: *mut u64,
    ) -> u32;
    fn keeper_begin(
        state: *mut u32,
        state_len: usize,
        current: *mut u64,
        current_len: usize,
        first: *mut u32,
        first_len: usize,
        last: *mut u32,
        last_len: usize,
        waiting: *mut u8,
        waiting_len: usize,
        reason: *mut u32,
        entry: *mut u32,
    ) -> u32;
    fn keeper_read(
        state: *mut u32,
        state_len: usize,
        cell: u32,
        current: *const u64,
        current_len: usize,
        value: *mut u64,
    ) -> u32;
    fn keeper_write(
        state: *mut u32,
        state_len: usize,
        cell: u32,
        new_value: u64,
        current: *mut u64,
        current_len: usize,
        first: *mut u32,
        first_len: usize,
        last: *mut u32,
        last_len: usize,
        waiting: *mut u8,
        waiting_len: usize,
    ) -> u32;
    fn keeper_commit(
        state: *mut u32,
        state_len: usize,
        medium: *mut u8,
        medium_len: usize,
        waiting: *mut u8,
        waiting_len: usize,
        value: *mut u64,
        reason: *mut u32,
        entry: *mut u32,
    ) -> u32;
    fn keeper_abort(
        state: *mut u32,
        state_len: usize,
        current: *mut u64,
        current_len: usize,
        first: *mut u32,
        first_len: usize,
        last: *mut u32,
        last_len: usize,
        waiting: *mut u8,
        waiting_len: usize,
        reason: *mut u32,
        entry: *mut u32,
    ) -> u32;
    fn keeper_force(
        state: *mut u32,
        state_len: usize,
        medium: *mut u8,
        medium_len: usize,
        waiting: *const u8,
        waiting_len: usize,
        value: *mut u64,
        reason: *mut u32,
        entry: *mut u32,
    ) -> u32;
    fn keeper_write_back(
        state: *mut u32,
        state_len: usize,
        cell: u32,
        medium: *mut u8,
        medium_len: usize,
        current: *const u64,
        current_len: usize,
        first: *mut u32,
        first_len: usize,
        last: *const u32,
        last_len: usize,
        value: *mut u64,
    ) -> u32;
    fn keeper_cut(
        state: *mut u32,
        state_len: usize,
        p: u32,
        medium: *mut u8,
        medium_len: usize,
        first: *const u32,
        first_len: usize,
        reason: *mut u32,
        entry: *mut u32,
    ) -> u32;
    fn keeper_look(
        state: *const u32,
        state_len: usize,
        n: u32,
        medium: *const u8,
        medium_len: usize,
        waiting: *const u8,
        waiting_len: usize,
        value: *mut u64,
    ) -> u32;
    fn keeper_table_view(medium: *const u8, medium_len: usize, value: *mut u64) -> u32;
    fn keeper_read_row(
        row: *const u8,
        row_len: usize,
        cells: u32,
        number: u32,
        fields: *mut u64,
        fields_len: usize,
    ) -> u32;
    fn keeper_write_row(row: *mut u8, row_len: usize, number: u32, kind: u32, cell: u32, old: u64, new: u64) -> u32;
}

pub struct Library;

// Safety, for every call below: the pointers and lengths are those of slices borrowed for the call, unique where the
// library writes, and the library keeps none of them.
impl Keeper for Library {
    #[inline]
    fn format(&self, medium: &mut [u8], cells: u32, slots: u32) -> u32 {
        unsafe { keeper_format(medium.as_mut_ptr(), medium.len(), cells, slots) }
    }

    #[inline]
    fn recovery_start(
        &self,
        medium: &[u8],
        current: &mut [u64],
        first: &mut [u32],
        last: &mut [u32],
        waiting: &[u8],
        state: &mut [u32],
        bad: &mut BadRow,
    ) -> u32 {
        unsafe {
            keeper_recovery_start(
                medium.as_ptr(),
                medium.len(),
                current.as_mut_ptr(),
                current.len(),
                first.as_mut_ptr(),
                first.len(),
                last.as_mut_ptr(),
                last.len(),
                waiting.as_ptr(),
                waiting.len(),
                state.as_mut_ptr(),
                state.len(),
                &mut bad.reason,
                &mut bad.entry,
            )
        }
    }

    #[inline]
    fn recovery_step(&self, state: &mut [u32], medium: &mut [u8], current: &[u64], value: &mut u64) -> u32 {
        unsafe {
            keeper_recovery_step(
                state.as_mut_ptr(),
                state.len(),
                medium.as_mut_ptr(),
                medium.len(),
                current.as_ptr(),
                current.len(),
                value,
            )
        }
    }

    #[inline]
    fn begin(
        &self,
        state: &mut [u32],
        current: &mut [u64],
        first: &mut [u32],
        last: &mut [u32],
        waiting: &mut [u8],
        bad: &mut BadRow,
    ) -> u32 {
        unsafe {
            keeper_begin(
                state.as_mut_ptr(),
                state.len(),
                current.as_mut_ptr(),
                current.len(),
                first.as_mut_ptr(),
                first.len(),
                last.as_mut_ptr(),
                last.len(),
                waiting.as_mut_ptr(),
                waiting.len(),
                &mut bad.reason,
                &mut bad.entry,
            )
        }
    }

    #[inline]
    fn read(&self, state: &mut [u32], cell: u32, current: &[u64], value: &mut u64) -> u32 {
        unsafe { keeper_read(state.as_mut_ptr(), state.len(), cell, current.as_ptr(), current.len(), value) }
    }

    #[inline]
    fn write(
        &self,
        state: &mut [u32],
        cell: u32,
        new: u64,
        current: &mut [u64],
        first: &mut [u32],
        last: &mut [u32],
        waiting: &mut [u8],
    ) -> u32 {
        unsafe {
            keeper_write(
                state.as_mut_ptr(),
                state.len(),
                cell,
                new,
                current.as_mut_ptr(),
                current.len(),
                first.as_mut_ptr(),
                first.len(),
                last.as_mut_ptr(),
                last.len(),
                waiting.as_mut_ptr(),
                waiting.len(),
            )
        }
    }

    #[inline]
    fn commit(
        &self,
        state: &mut [u32],
        medium: &mut [u8],
        waiting: &mut [u8],
        value: &mut u64,
        bad: &mut BadRow,
    ) -> u32 {
        unsafe {
            keeper_commit(
                state.as_mut_ptr(),
                state.len(),
                medium.as_mut_ptr(),
                medium.len(),
                waiting.as_mut_ptr(),
                waiting.len(),
                value,
                &mut bad.reason,
                &mut bad.entry,
            )
        }
    }

    #[inline]
    fn abort(
        &self,
        state: &mut [u32],
        current: &mut [u64],
        first: &mut [u32],
        last: &mut [u32],
        waiting: &mut [u8],
        bad: &mut BadRow,
    ) -> u32 {
        unsafe {
            keeper_abort(
                state.as_mut_ptr(),
                state.len(),
                current.as_mut_ptr(),
                current.len(),
                first.as_mut_ptr(),
                first.len(),
                last.as_mut_ptr(),
                last.len(),
                waiting.as_mut_ptr(),
                waiting.len(),
                &mut bad.reason,
                &mut bad.entry,
            )
        }
    }

    #[inline]
    fn force(&self, state: &mut [u32], medium: &mut [u8], waiting: &[u8], value: &mut u64, bad: &mut BadRow) -> u32 {
        unsafe {
            keeper_force(
                state.as_mut_ptr(),
                state.len(),
                medium.as_mut_ptr(),
                medium.len(),
                waiting.as_ptr(),
                waiting.len(),
                value,
                &mut bad.reason,
                &mut bad.entry,
            )
        }
    }

    #[inline]
    fn write_back(
        &self,
        state: &mut [u32],
        cell: u32,
        medium: &mut [u8],
        current: &[u64],
        first: &mut [u32],
        last: &[u32],
        value: &mut u64,
    ) -> u32 {
        unsafe {
            keeper_write_back(
                state.as_mut_ptr(),
                state.len(),
                cell,
                medium.as_mut_ptr(),
                medium.len(),
                current.as_ptr(),
                current.len(),
                first.as_mut_ptr(),
                first.len(),
                last.as_ptr(),
                last.len(),
                value,
            )
        }
    }

    #[inline]
    fn cut(&self, state: &mut [u32], p: u32, medium: &mut [u8], first: &[u32], bad: &mut BadRow) -> u32 {
        unsafe {
            keeper_cut(
                state.as_mut_ptr(),
                state.len(),
                p,
                medium.as_mut_ptr(),
                medium.len(),
                first.as_ptr(),
                first.len(),
                &mut bad.reason,
                &mut bad.entry,
            )
        }
    }

    #[inline]
    fn look(&self, state: &[u32], n: u32, medium: &[u8], waiting: &[u8], value: &mut u64) -> u32 {
        unsafe {
            keeper_look(
                state.as_ptr(),
                state.len(),
                n,
                medium.as_ptr(),
                medium.len(),
                waiting.as_ptr(),
                waiting.len(),
                value,
            )
        }
    }

    #[inline]
    fn table_view(&self, medium: &[u8], value: &mut u64) -> u32 {
        unsafe { keeper_table_view(medium.as_ptr(), medium.len(), value) }
    }

    #[inline]
    fn read_row(&self, row: &[u8], cells: u32, number: u32, fields: &mut [u64; 4]) -> u32 {
        unsafe { keeper_read_row(row.as_ptr(), row.len(), cells, number, fields.as_mut_ptr(), fields.len()) }
    }

    #[inline]
    fn write_row(&self, row: &mut [u8], number: u32, kind: u32, cell: u32, old: u64, new: u64) -> u32 {
        unsafe { keeper_write_row(row.as_mut_ptr(), row.len(), number, kind, cell, old, new) }
    }
}
