//! The verified planner, by the C interface of the crate `bench_settle`.

use crate::books::{BatchRow, MachineRow};

/// The C signature of the three functions: each slice is a pointer and then its length.
type Settle = unsafe extern "C" fn(
    machines: *const MachineRow,
    machine_count: usize,
    batches: *const BatchRow,
    batch_count: usize,
    again: u32,
    loads: *mut u32,
    load_count: usize,
) -> u8;

unsafe extern "C" {
    fn bench_settle_even(
        m: *const MachineRow,
        mc: usize,
        b: *const BatchRow,
        bc: usize,
        again: u32,
        l: *mut u32,
        lc: usize,
    ) -> u8;
    fn bench_settle_lots(
        m: *const MachineRow,
        mc: usize,
        b: *const BatchRow,
        bc: usize,
        again: u32,
        l: *mut u32,
        lc: usize,
    ) -> u8;
    fn bench_settle_backlog(
        m: *const MachineRow,
        mc: usize,
        b: *const BatchRow,
        bc: usize,
        again: u32,
        l: *mut u32,
        lc: usize,
    ) -> u8;
}

pub fn even(machines: &[MachineRow], batches: &[BatchRow], again: u32, loads: &mut [u32]) -> u8 {
    call(bench_settle_even, machines, batches, again, loads)
}

pub fn lots(machines: &[MachineRow], batches: &[BatchRow], again: u32, loads: &mut [u32]) -> u8 {
    call(bench_settle_lots, machines, batches, again, loads)
}

pub fn backlog(machines: &[MachineRow], batches: &[BatchRow], again: u32, loads: &mut [u32]) -> u8 {
    call(bench_settle_backlog, machines, batches, again, loads)
}

fn call(
    settle: Settle,
    machines: &[MachineRow],
    batches: &[BatchRow],
    again: u32,
    loads: &mut [u32],
) -> u8 {
    // SAFETY: the verified functions ask nothing of their arguments (no `requires`), and each pointer
    // comes from a slice of the length that goes with it.
    unsafe {
        settle(
            machines.as_ptr(),
            machines.len(),
            batches.as_ptr(),
            batches.len(),
            again,
            loads.as_mut_ptr(),
            loads.len(),
        )
    }
}
