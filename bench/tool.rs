//! The tool, linked in as a static library.

#[repr(C)]
#[derive(Clone, Copy, Default)]
pub struct ToldTimes {
    pub late: u32,
    pub wait: u32,
    pub end: u32,
    pub limit: u32,
}

#[repr(C)]
pub struct Told {
    pub outcome: u32,
    pub count: usize,
    pub steps: u64,
    pub times: [ToldTimes; 64],
}

impl Told {
    pub fn blank() -> Told {
        Told {
            outcome: u32::MAX,
            count: 0,
            steps: 0,
            times: [ToldTimes::default(); 64],
        }
    }
}

extern "C" {
    fn vojemity_tell(
        cell: *const u8,
        cell_length: usize,
        process: *const u8,
        process_length: usize,
        told: *mut Told,
    );
}

pub fn tell(cell: &[u8], process: &[u8], told: &mut Told) {
    // The library reads the two slices and writes `told`, for the length of the call.
    unsafe {
        vojemity_tell(
            cell.as_ptr(),
            cell.len(),
            process.as_ptr(),
            process.len(),
            told,
        )
    }
}
