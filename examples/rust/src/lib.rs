//! The calls of `pilzhoon.h` that the examples need, for Rust.

/// The head of an image.
#[repr(C)]
#[derive(Clone, Copy, Debug, Default)]
pub struct Head {
    pub words: u32,
    pub alias: u32,
    pub check: u32,
    pub expected: u32,
    pub vendor: u32,
    pub product: u32,
    pub revision: u32,
    pub serial: u32,
}

/// A word access.
#[repr(C)]
#[derive(Clone, Copy, Debug, Default)]
pub struct Access {
    phase: u32,
    more: u32,
    tries: u32,
    /// After `Progress::Read` the word.
    pub first: u16,
    /// After `Progress::Read` the next word.
    pub second: u16,
}

/// A datagram that is to be sent.
#[repr(C)]
#[derive(Clone, Copy, Debug, Default)]
pub struct Datagram {
    pub command: u8,
    pub length: u8,
    pub ado: u16,
    pub content: [u8; 8],
}

/// What is to be done next, or how an access ended: `pz_progress`.
#[derive(Clone, Copy, Debug, PartialEq, Eq)]
pub enum Progress {
    Lost,
    Stopped,
    Dead,
    Send,
    Opened,
    Read,
    Taken,
    NotTaken,
    Written,
    Again,
    NoAccess,
    /// No number of this version of the library.
    Unknown(u32),
}

impl From<u32> for Progress {
    fn from(number: u32) -> Progress {
        match number {
            41 => Progress::Lost,
            42 => Progress::Stopped,
            43 => Progress::Dead,
            300 => Progress::Send,
            301 => Progress::Opened,
            302 => Progress::Read,
            303 => Progress::Taken,
            304 => Progress::NotTaken,
            305 => Progress::Written,
            306 => Progress::Again,
            310 => Progress::NoAccess,
            other => Progress::Unknown(other),
        }
    }
}

mod raw {
    use super::{Access, Datagram, Head};

    #[link(name = "pilzhoon", kind = "static")]
    unsafe extern "C" {
        pub fn pz_read_head(image: *const u8, length: usize, head: *mut Head) -> u32;
        pub fn pz_set_alias(image: *mut u8, length: usize, alias: u16) -> u32;
        pub fn pz_validate(image: *const u8, length: usize, detail: *mut usize) -> u32;
        pub fn pz_open(access: *mut Access);
        pub fn pz_read(access: *mut Access, word: u16);
        pub fn pz_issue(access: *mut Access, word: u16, value: u16);
        pub fn pz_settle(access: *mut Access, taken: u32);
        pub fn pz_next(access: *const Access, datagram: *mut Datagram) -> u32;
        pub fn pz_take(access: *mut Access, counter: u16, content: *const u8, length: usize) -> u32;
        pub fn pz_lose(access: *mut Access) -> u32;
    }
}

/// The code of a refusal: a `pz_code`.
#[derive(Clone, Copy, Debug, PartialEq, Eq)]
pub struct Refused(pub u32);

fn outcome<T>(code: u32, value: T) -> Result<T, Refused> {
    if code == 0 { Ok(value) } else { Err(Refused(code)) }
}

/// Reads the head of an image.
pub fn read_head(image: &[u8]) -> Result<Head, Refused> {
    let mut head = Head::default();
    // SAFETY: the pointers come from references, and the call keeps none of them.
    let code = unsafe { raw::pz_read_head(image.as_ptr(), image.len(), &mut head) };
    outcome(code, head)
}

/// Sets the alias of an image, and its check byte with it.
pub fn set_alias(image: &mut [u8], alias: u16) -> Result<(), Refused> {
    // SAFETY: as above.
    let code = unsafe { raw::pz_set_alias(image.as_mut_ptr(), image.len(), alias) };
    outcome(code, ())
}

/// Checks an image.
pub fn validate(image: &[u8]) -> Result<(), Refused> {
    let mut detail = 0;
    // SAFETY: as above.
    let code = unsafe { raw::pz_validate(image.as_ptr(), image.len(), &mut detail) };
    outcome(code, ())
}

// SAFETY of the calls below: the pointers come from references, and no call keeps one.
impl Access {
    /// Begins to open a slave.
    pub fn open() -> Access {
        let mut access = Access::default();
        unsafe { raw::pz_open(&mut access) };
        access
    }

    /// Begins to read a word and the next one.
    pub fn read(word: u16) -> Access {
        let mut access = Access::default();
        unsafe { raw::pz_read(&mut access, word) };
        access
    }

    /// Begins to issue a word.
    pub fn issue(word: u16, value: u16) -> Access {
        let mut access = Access::default();
        unsafe { raw::pz_issue(&mut access, word, value) };
        access
    }

    /// Begins to wait for a word that was issued.
    pub fn settle(taken: bool) -> Access {
        let mut access = Access::default();
        unsafe { raw::pz_settle(&mut access, u32::from(taken)) };
        access
    }

    /// Says what is to be done next, or how the access ended. At `Progress::Send` the datagram is the one to be sent.
    pub fn next(&self, datagram: &mut Datagram) -> Progress {
        unsafe { raw::pz_next(self, datagram) }.into()
    }

    /// Takes in the datagram that came back.
    pub fn take(&mut self, counter: u16, content: &[u8]) -> Result<(), Refused> {
        outcome(unsafe { raw::pz_take(self, counter, content.as_ptr(), content.len()) }, ())
    }

    /// Takes in that the frame was lost.
    pub fn lose(&mut self) -> Result<(), Refused> {
        outcome(unsafe { raw::pz_lose(self) }, ())
    }
}
