//! The proved functions, from the static libraries of the crates `speed`, over words, and `agent`, over bytes. A slice is lent
//! as its pointer and its length.

mod raw {
    #[link(name = "speed", kind = "static")]
    unsafe extern "C" {
        pub fn speed_read(file: *const u32, words: usize) -> u32;
        pub fn speed_tree(
            file: *const u32,
            words: usize,
            packet: *const u32,
            values: usize,
            given: *mut u32,
            two: usize,
        ) -> u32;
        pub fn speed_compile(
            file: *const u32,
            words: usize,
            table: *mut u32,
            room: usize,
            scratch: *mut u32,
            more: usize,
        ) -> usize;
        pub fn speed_scan(
            table: *const u32,
            words: usize,
            packet: *const u32,
            values: usize,
            given: *mut u32,
            two: usize,
        ) -> usize;
        pub fn speed_number(
            table: *const u32,
            words: usize,
            priorities: *mut u32,
            many: usize,
            chain: *mut u32,
            long: usize,
        ) -> u32;
        pub fn speed_hidden(table: *mut u32, words: usize) -> usize;
        pub fn speed_capture(
            table: *const u32,
            words: usize,
            packets: *const u32,
            values: usize,
            answers: *mut u32,
            room: usize,
        ) -> usize;
    }

    #[link(name = "agent", kind = "static")]
    unsafe extern "C" {
        pub fn agent_scan(
            table: *const u8,
            bytes: usize,
            packet: *const u8,
            values: usize,
            answer: *mut u8,
            room: usize,
        ) -> u32;
        pub fn agent_number(
            table: *const u8,
            bytes: usize,
            priorities: *mut u8,
            many: usize,
            chain: *mut u8,
            long: usize,
            answer: *mut u8,
            room: usize,
        ) -> u32;
    }
}

// SAFETY, of each call: every slice is valid for its length, and those that are written are no others.

pub fn read(file: &[u32]) -> u32 {
    unsafe { raw::speed_read(file.as_ptr(), file.len()) }
}

pub fn tree(file: &[u32], packet: &[u32], given: &mut [u32]) -> u32 {
    unsafe {
        raw::speed_tree(
            file.as_ptr(),
            file.len(),
            packet.as_ptr(),
            packet.len(),
            given.as_mut_ptr(),
            given.len(),
        )
    }
}

pub fn compile(file: &[u32], table: &mut [u32], scratch: &mut [u32]) -> usize {
    unsafe {
        raw::speed_compile(
            file.as_ptr(),
            file.len(),
            table.as_mut_ptr(),
            table.len(),
            scratch.as_mut_ptr(),
            scratch.len(),
        )
    }
}

pub fn scan(table: &[u32], packet: &[u32], given: &mut [u32]) -> usize {
    unsafe {
        raw::speed_scan(
            table.as_ptr(),
            table.len(),
            packet.as_ptr(),
            packet.len(),
            given.as_mut_ptr(),
            given.len(),
        )
    }
}

pub fn number(table: &[u32], priorities: &mut [u32], chain: &mut [u32]) -> u32 {
    unsafe {
        raw::speed_number(
            table.as_ptr(),
            table.len(),
            priorities.as_mut_ptr(),
            priorities.len(),
            chain.as_mut_ptr(),
            chain.len(),
        )
    }
}

pub fn hidden(table: &mut [u32]) -> usize {
    unsafe { raw::speed_hidden(table.as_mut_ptr(), table.len()) }
}

pub fn capture(table: &[u32], packets: &[u32], answers: &mut [u32]) -> usize {
    unsafe {
        raw::speed_capture(
            table.as_ptr(),
            table.len(),
            packets.as_ptr(),
            packets.len(),
            answers.as_mut_ptr(),
            answers.len(),
        )
    }
}

pub fn agent_scan(table: &[u8], packet: &[u8], answer: &mut [u8]) -> u32 {
    unsafe {
        raw::agent_scan(
            table.as_ptr(),
            table.len(),
            packet.as_ptr(),
            packet.len(),
            answer.as_mut_ptr(),
            answer.len(),
        )
    }
}

pub fn agent_number(table: &[u8], priorities: &mut [u8], chain: &mut [u8], answer: &mut [u8]) -> u32 {
    unsafe {
        raw::agent_number(
            table.as_ptr(),
            table.len(),
            priorities.as_mut_ptr(),
            priorities.len(),
            chain.as_mut_ptr(),
            chain.len(),
            answer.as_mut_ptr(),
            answer.len(),
        )
    }
}
