//! The port, called as C calls it.

use std::slice;

use crate::outline::Tables;

extern "C" {
    fn claspwillow_check(context: u32, tree: *const u8, tree_len: u64, work: *mut u64, work_len: u64, ty: *mut u32) -> u32;
    fn claspwillow_check_work() -> u64;
    fn claspwillow_compile(
        context: u32,
        policy: *const u8,
        policy_len: u64,
        out: *mut u8,
        out_len: u64,
        work: *mut u64,
        work_len: u64,
        bytes: *mut u64,
        cost: *mut u64,
        never: *mut u32,
        nodes: *mut u64,
    ) -> u32;
    fn claspwillow_compile_work() -> u64;
    fn claspwillow_choose(
        context: u32,
        policy: *const u8,
        policy_len: u64,
        work: *mut u64,
        work_len: u64,
        bytes: *mut u64,
        cost: *mut u64,
        never: *mut u32,
        nodes: *mut u64,
    ) -> u32;
    fn claspwillow_choose_work() -> u64;
    fn claspwillow_write(out: *mut u8, out_len: u64, work: *mut u64, work_len: u64, bytes: *mut u64) -> u32;
    fn claspwillow_write_work() -> u64;
    fn claspwillow_script(
        context: u32,
        tree: *const u8,
        tree_len: u64,
        keys: *const u8,
        keys_len: u64,
        key_hashes: *const u8,
        key_hashes_len: u64,
        hashes32: *const u8,
        hashes32_len: u64,
        hashes20: *const u8,
        hashes20_len: u64,
        out: *mut u8,
        out_len: u64,
        work: *mut u64,
        work_len: u64,
        bytes: *mut u64,
    ) -> u32;
    fn claspwillow_script_work() -> u64;
    fn claspwillow_differ(
        context: u32,
        left: *const u8,
        left_len: u64,
        right: *const u8,
        right_len: u64,
        out: *mut u8,
        out_len: u64,
        work: *mut u64,
        work_len: u64,
        differences: *mut u64,
    ) -> u32;
    fn claspwillow_differ_work() -> u64;
    fn claspwillow_witness(
        context: u32,
        tree: *const u8,
        tree_len: u64,
        work: *mut u64,
        work_len: u64,
        found: *mut u32,
        smallest: *mut u64,
        largest: *mut u64,
    ) -> u32;
    fn claspwillow_witness_work() -> u64;
    fn claspwillow_replay(
        log: *const u8,
        log_len: u64,
        reports: *mut u8,
        reports_len: u64,
        work: *mut u64,
        work_len: u64,
        entries: *mut u64,
    ) -> u32;
    fn claspwillow_replay_work() -> u64;
    fn claspwillow_index(
        context: u32,
        tree: *const u8,
        tree_len: u64,
        out: *mut u8,
        out_len: u64,
        work: *mut u64,
        work_len: u64,
        bytes: *mut u64,
    ) -> u32;
    fn claspwillow_index_work() -> u64;
    fn claspwillow_find(
        context: u32,
        tree: *const u8,
        tree_len: u64,
        index: *const u8,
        index_len: u64,
        at: u64,
        work: *mut u64,
        work_len: u64,
        found: *mut u32,
        record: *mut u32,
    ) -> u32;
    fn claspwillow_find_work() -> u64;
    fn claspwillow_accept(
        context: u32,
        policy: *const u8,
        policy_len: u64,
        tree: *const u8,
        tree_len: u64,
        work: *mut u64,
        work_len: u64,
    ) -> u32;
    fn claspwillow_accept_work() -> u64;
    fn claspwillow_to_new(policy: *const u8, policy_len: u64, out: *mut u8, out_len: u64, bytes: *mut u64) -> u32;
    fn claspwillow_to_old(policy: *const u8, policy_len: u64, out: *mut u8, out_len: u64, bytes: *mut u64) -> u32;
}

/// The words of work memory that the check asks for.
pub fn check_work() -> usize {
    // SAFETY: the function takes nothing.
    unsafe { claspwillow_check_work() as usize }
}

/// The number, and the packed type as the call left it.
pub fn check(context: u32, tree: &[u8], work: &mut [u64], ty: &mut u32) -> u32 {
    // SAFETY: each slice is passed as its own pointer and length.
    unsafe { claspwillow_check(context, tree.as_ptr(), tree.len() as u64, work.as_mut_ptr(), work.len() as u64, slice::from_mut(ty).as_mut_ptr()) }
}

/// The words of work memory that compile asks for.
pub fn compile_work() -> usize {
    // SAFETY: the function takes nothing.
    unsafe { claspwillow_compile_work() as usize }
}

/// What compile gives besides its number and the output: the bytes, the bits of the cost, whether it is never, and the nodes.
#[derive(Clone, Copy, PartialEq, Eq)]
pub struct Results {
    pub bytes: u64,
    pub cost: u64,
    pub never: u32,
    pub nodes: u64,
}

/// The number; the results as the call left them.
pub fn compile(context: u32, policy: &[u8], out: &mut [u8], work: &mut [u64], results: &mut Results) -> u32 {
    let Results { bytes, cost, never, nodes } = results;
    // SAFETY: each slice is passed as its own pointer and length, and each result as a pointer to one word.
    unsafe {
        claspwillow_compile(
            context,
            policy.as_ptr(),
            policy.len() as u64,
            out.as_mut_ptr(),
            out.len() as u64,
            work.as_mut_ptr(),
            work.len() as u64,
            bytes,
            cost,
            never,
            nodes,
        )
    }
}

/// The number, and the count of bytes as the call left it.
pub fn to_new(policy: &[u8], out: &mut [u8], bytes: &mut u64) -> u32 {
    // SAFETY: each slice is passed as its own pointer and length, and the result as a pointer to one number.
    unsafe { claspwillow_to_new(policy.as_ptr(), policy.len() as u64, out.as_mut_ptr(), out.len() as u64, bytes) }
}

/// The number, and the count of bytes as the call left it.
pub fn to_old(policy: &[u8], out: &mut [u8], bytes: &mut u64) -> u32 {
    // SAFETY: each slice is passed as its own pointer and length, and the result as a pointer to one number.
    unsafe { claspwillow_to_old(policy.as_ptr(), policy.len() as u64, out.as_mut_ptr(), out.len() as u64, bytes) }
}

/// The words of work memory that choose asks for.
pub fn choose_work() -> usize {
    // SAFETY: the function takes nothing.
    unsafe { claspwillow_choose_work() as usize }
}

/// The number; the results as the call left them.
pub fn choose(context: u32, policy: &[u8], work: &mut [u64], results: &mut Results) -> u32 {
    let Results { bytes, cost, never, nodes } = results;
    // SAFETY: each slice is passed as its own pointer and length, and each result as a pointer to one number.
    unsafe { claspwillow_choose(context, policy.as_ptr(), policy.len() as u64, work.as_mut_ptr(), work.len() as u64, bytes, cost, never, nodes) }
}

/// The words of work memory that write asks for.
pub fn write_work() -> usize {
    // SAFETY: the function takes nothing.
    unsafe { claspwillow_write_work() as usize }
}

/// The number, and the count of bytes as the call left it.
pub fn write(out: &mut [u8], work: &mut [u64], bytes: &mut u64) -> u32 {
    // SAFETY: each slice is passed as its own pointer and length, and the result as a pointer to one number.
    unsafe { claspwillow_write(out.as_mut_ptr(), out.len() as u64, work.as_mut_ptr(), work.len() as u64, bytes) }
}

/// The words of work memory that script asks for.
pub fn script_work() -> usize {
    // SAFETY: the function takes nothing.
    unsafe { claspwillow_script_work() as usize }
}

/// The number, and the count of bytes as the call left it.
pub fn script(context: u32, tree: &[u8], tables: &Tables, out: &mut [u8], work: &mut [u64], bytes: &mut u64) -> u32 {
    let [keys, key_hashes, hashes32, hashes20] = tables;
    // SAFETY: each slice is passed as its own pointer and length, and the result as a pointer to one word.
    unsafe {
        claspwillow_script(
            context,
            tree.as_ptr(),
            tree.len() as u64,
            keys.as_ptr(),
            keys.len() as u64,
            key_hashes.as_ptr(),
            key_hashes.len() as u64,
            hashes32.as_ptr(),
            hashes32.len() as u64,
            hashes20.as_ptr(),
            hashes20.len() as u64,
            out.as_mut_ptr(),
            out.len() as u64,
            work.as_mut_ptr(),
            work.len() as u64,
            bytes,
        )
    }
}

/// The words of work memory that differ asks for.
pub fn differ_work() -> usize {
    // SAFETY: the function takes nothing.
    unsafe { claspwillow_differ_work() as usize }
}

/// The number, and the count of differences as the call left it.
pub fn differ(context: u32, left: &[u8], right: &[u8], out: &mut [u8], work: &mut [u64], differences: &mut u64) -> u32 {
    // SAFETY: each slice is passed as its own pointer and length, and the result as a pointer to one word.
    unsafe {
        claspwillow_differ(
            context,
            left.as_ptr(),
            left.len() as u64,
            right.as_ptr(),
            right.len() as u64,
            out.as_mut_ptr(),
            out.len() as u64,
            work.as_mut_ptr(),
            work.len() as u64,
            differences,
        )
    }
}

/// The words of work memory that witness asks for.
pub fn witness_work() -> usize {
    // SAFETY: the function takes nothing.
    unsafe { claspwillow_witness_work() as usize }
}

/// The number, and what was found and the two extremes as the call left them.
pub fn witness(context: u32, tree: &[u8], work: &mut [u64], found: &mut u32, smallest: &mut u64, largest: &mut u64) -> u32 {
    // SAFETY: each slice is passed as its own pointer and length, and each result as a pointer to one number.
    unsafe { claspwillow_witness(context, tree.as_ptr(), tree.len() as u64, work.as_mut_ptr(), work.len() as u64, found, smallest, largest) }
}

/// The words of work memory that replay asks for.
pub fn replay_work() -> usize {
    // SAFETY: the function takes nothing.
    unsafe { claspwillow_replay_work() as usize }
}

/// The number, and the count of entries as the call left it.
pub fn replay(log: &[u8], reports: &mut [u8], work: &mut [u64], entries: &mut u64) -> u32 {
    // SAFETY: each slice is passed as its own pointer and length, and the result as a pointer to one number.
    unsafe { claspwillow_replay(log.as_ptr(), log.len() as u64, reports.as_mut_ptr(), reports.len() as u64, work.as_mut_ptr(), work.len() as u64, entries) }
}

/// The words of work memory that index asks for.
pub fn index_work() -> usize {
    // SAFETY: the function takes nothing.
    unsafe { claspwillow_index_work() as usize }
}

/// The number, and the count of bytes as the call left it.
pub fn index(context: u32, tree: &[u8], out: &mut [u8], work: &mut [u64], bytes: &mut u64) -> u32 {
    // SAFETY: each slice is passed as its own pointer and length, and the result as a pointer to one word.
    unsafe {
        claspwillow_index(context, tree.as_ptr(), tree.len() as u64, out.as_mut_ptr(), out.len() as u64, work.as_mut_ptr(), work.len() as u64, bytes)
    }
}

/// The words of work memory that find asks for.
pub fn find_work() -> usize {
    // SAFETY: the function takes nothing.
    unsafe { claspwillow_find_work() as usize }
}

/// The number, and whether a fragment was found and its record as the call left them.
pub fn find(context: u32, tree: &[u8], index: &[u8], at: u64, work: &mut [u64], found: &mut u32, record: &mut u32) -> u32 {
    // SAFETY: each slice is passed as its own pointer and length, and each result as a pointer to one number.
    unsafe {
        claspwillow_find(
            context,
            tree.as_ptr(),
            tree.len() as u64,
            index.as_ptr(),
            index.len() as u64,
            at,
            work.as_mut_ptr(),
            work.len() as u64,
            found,
            record,
        )
    }
}

/// The words of work memory that accept asks for.
pub fn accept_work() -> usize {
    // SAFETY: the function takes nothing.
    unsafe { claspwillow_accept_work() as usize }
}

/// The number.
pub fn accept(context: u32, policy: &[u8], tree: &[u8], work: &mut [u64]) -> u32 {
    // SAFETY: each slice is passed as its own pointer and length.
    unsafe {
        claspwillow_accept(context, policy.as_ptr(), policy.len() as u64, tree.as_ptr(), tree.len() as u64, work.as_mut_ptr(), work.len() as u64)
    }
}
