//! The proved library's C functions, over slices: all that is unsafe stands here, but for the calls on another stack (`stack`).

pub(crate) mod c {
    extern "C" {
        pub fn unit_fresh(mem: *mut u8, len: usize, number: u32, shape: u8) -> u8;
        pub fn unit_write(
            mem: *mut u8,
            len: usize,
            epoch: u32,
            position: u64,
            kind: u8,
            data: *const u8,
            data_len: usize,
        ) -> u8;
        pub fn unit_read(
            mem: *const u8,
            len: usize,
            epoch: u32,
            position: u64,
            kind: *mut u8,
            start: *mut u64,
            length: *mut u64,
        ) -> u8;
        pub fn unit_trim(mem: *mut u8, len: usize, epoch: u32, position: u64) -> u8;
        pub fn unit_prune(mem: *mut u8, len: usize, epoch: u32, position: u64) -> u8;
        pub fn unit_seal(mem: *mut u8, len: usize, epoch: u32, edge: *mut u64, written: *mut u64) -> u8;
        pub fn unit_edges(mem: *const u8, len: usize, edge: *mut u64, written: *mut u64) -> u8;
    }
}

// A slice's pointer and length are what the library asks for, and borrows keep the slices apart from each other and from
// the outputs.

pub fn fresh(mem: &mut [u8], number: u32, shape: u8) -> u8 {
    unsafe { c::unit_fresh(mem.as_mut_ptr(), mem.len(), number, shape) }
}

pub fn write(mem: &mut [u8], epoch: u32, position: u64, kind: u8, data: &[u8]) -> u8 {
    unsafe { c::unit_write(mem.as_mut_ptr(), mem.len(), epoch, position, kind, data.as_ptr(), data.len()) }
}

pub fn read(mem: &[u8], epoch: u32, position: u64, kind: &mut u8, start: &mut u64, length: &mut u64) -> u8 {
    unsafe { c::unit_read(mem.as_ptr(), mem.len(), epoch, position, kind, start, length) }
}

pub fn trim(mem: &mut [u8], epoch: u32, position: u64) -> u8 {
    unsafe { c::unit_trim(mem.as_mut_ptr(), mem.len(), epoch, position) }
}

pub fn prune(mem: &mut [u8], epoch: u32, position: u64) -> u8 {
    unsafe { c::unit_prune(mem.as_mut_ptr(), mem.len(), epoch, position) }
}

pub fn seal(mem: &mut [u8], epoch: u32, edge: &mut u64, written: &mut u64) -> u8 {
    unsafe { c::unit_seal(mem.as_mut_ptr(), mem.len(), epoch, edge, written) }
}

pub fn edges(mem: &[u8], edge: &mut u64, written: &mut u64) -> u8 {
    unsafe { c::unit_edges(mem.as_ptr(), mem.len(), edge, written) }
}
