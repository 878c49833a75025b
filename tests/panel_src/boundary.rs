//! The two functions of the static library.

use reference::sorts::STATEMENTS;

extern "C" {
    /// Writes the word of run and then that of export, each with its high byte
    /// first, and returns the number of the refusal or 0.
    fn panel_of_journal(journal: *const u8, length: usize, principal: u8, words: *mut [u8; 8]) -> u8;

    /// Writes the preview buffer that the journal leaves, and returns the number
    /// of the refusal or 0.
    fn preview_of_journal(journal: *const u8, length: usize, out: *mut [u8; STATEMENTS]) -> u8;
}

#[derive(Clone, Copy, Debug, PartialEq, Eq)]
pub struct Panel {
    pub refusal: u8,
    pub run: u32,
    pub export: u32,
}

/// What the library says. The buffer is filled first, so that a byte which is
/// not written shows.
pub fn panel(journal: &[u8], principal: u8) -> Panel {
    let mut words = [0xAA; 8];
    let refusal =
        unsafe { panel_of_journal(journal.as_ptr(), journal.len(), principal, &mut words) };
    let words = u64::from_be_bytes(words);
    Panel { refusal, run: (words >> 32) as u32, export: words as u32 }
}

#[derive(Clone, PartialEq, Eq)]
pub struct Preview {
    pub refusal: u8,
    pub bytes: Vec<u8>,
}

/// The preview buffer by the library. It is filled first here too.
pub fn preview(journal: &[u8]) -> Preview {
    let mut bytes = [0xAA; STATEMENTS];
    let refusal = unsafe { preview_of_journal(journal.as_ptr(), journal.len(), &mut bytes) };
    Preview { refusal, bytes: bytes.to_vec() }
}
