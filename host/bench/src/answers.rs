//! What a call answers, of the library and of the plain implementation alike.

#[repr(C)]
#[derive(Clone, Copy)]
pub struct Answer {
    pub number: u32,
    pub used: usize,
}

#[repr(C)]
#[derive(Clone, Copy)]
pub struct Decomposed {
    pub number: u32,
    pub high: u32,
    pub used: usize,
}

#[repr(C)]
#[derive(Clone, Copy)]
pub struct Judged {
    pub number: u32,
    pub verdict: u32,
    pub opened: u32,
    pub used: usize,
}
