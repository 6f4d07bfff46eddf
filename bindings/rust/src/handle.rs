//! A handle of the library, and its calls.

use crate::library::{self, Handle};
use crate::site::demand_processor;
use crate::Error;

/// The words of a call.
#[derive(Clone, Copy)]
pub(crate) enum Word {
    Answer,
    List,
    Load,
    Receive,
    Header,
    Save,
    Restart,
    Rules,
    Count = 10,
    Cookies,
    Clear,
    HeaderByPage,
    HeaderByNavigation,
    KeepList,
    Client,
    LoadBy,
    SuffixBy,
    ShardBy,
    ShardOfUrlBy,
    Import,
    Export,
    ExportForWget,
    ExportForPython,
    ExportLasting,
    ExportLastingForWget,
    ExportLastingForPython,
}

/// The words of a call with one cookie.
#[derive(Clone, Copy)]
pub(crate) enum One {
    Get,
    Remove,
}

/// What a receipt is told of the start of its request.
#[derive(Clone, Copy)]
pub(crate) enum Started {
    User,
    Page,
    Navigation,
}

/// A handle, with room for answers.
pub(crate) struct Held {
    at: Box<Handle>,
    room: Vec<u8>,
}

impl Held {
    pub(crate) fn begun() -> Held {
        demand_processor();
        let mut at = Box::new(Handle([0; 128]));
        // The call asks nothing. Its answer is at most the size of a handle.
        assert!(unsafe { library::fonnalich_size() } <= size_of::<Handle>());
        // The place has room for a handle, and stays where it is until this is dropped.
        unsafe { library::fonnalich_place(&mut *at) };
        Held { at, room: vec![0; 4096] }
    }

    /// Keeps the list that the other keeps.
    pub(crate) fn share(&mut self, other: &mut Held) -> Result<(), Error> {
        // Both handles were begun and aren't ended, and they are two.
        match unsafe { library::fonnalich_share(&mut *self.at, &mut *other.at) } {
            0 => Ok(()),
            number => Err(Error::of(number)),
        }
    }

    pub(crate) fn act(&mut self, word: Word, number: i64, subject: &[u8], text: &[u8]) -> Result<&[u8], Error> {
        let length = self.call(word, number, subject, text);
        self.answer(length)
    }

    pub(crate) fn one(&mut self, word: One, second: i64, [domain, path, name]: [&str; 3]) -> Result<&[u8], Error> {
        let (out, room) = (self.room.as_mut_ptr(), self.room.len());
        // The handle was begun and isn't ended. The call reads the three texts, and writes at most `room` bytes.
        let length = unsafe {
            library::fonnalich_one(
                &mut *self.at,
                word as u32,
                second,
                domain.as_ptr(),
                domain.len(),
                path.as_ptr(),
                path.len(),
                name.as_ptr(),
                name.len(),
                out,
                room,
            )
        };
        self.answer(length)
    }

    pub(crate) fn receive_for(&mut self, started: Started, now: i64, texts: [&[u8]; 3]) -> Result<&[u8], Error> {
        let ([url, page, lines], out, room) = (texts, self.room.as_mut_ptr(), self.room.len());
        // The handle was begun and isn't ended. The call reads the three texts, and writes at most `room` bytes.
        let length = unsafe {
            library::fonnalich_receive_for(
                &mut *self.at,
                started as u32,
                now,
                url.as_ptr(),
                url.len(),
                page.as_ptr(),
                page.len(),
                lines.as_ptr(),
                lines.len(),
                out,
                room,
            )
        };
        self.answer(length)
    }

    // The answer of a call that was this long, which is kept where the room was too small.
    fn answer(&mut self, mut length: isize) -> Result<&[u8], Error> {
        if length > self.room.len() as isize {
            self.room.resize(length as usize, 0);
            length = self.call(Word::Answer, 0, b"", b"");
        }
        match usize::try_from(length) {
            Ok(length) => Ok(&self.room[..length]),
            Err(_) => Err(Error::of(length)),
        }
    }

    fn call(&mut self, word: Word, number: i64, subject: &[u8], text: &[u8]) -> isize {
        let (out, room) = (self.room.as_mut_ptr(), self.room.len());
        // The handle was begun and isn't ended. The call reads the two texts, and writes at most `room` bytes.
        unsafe {
            library::fonnalich_act(
                &mut *self.at,
                word as u32,
                number,
                subject.as_ptr(),
                subject.len(),
                text.as_ptr(),
                text.len(),
                out,
                room,
            )
        }
    }
}

impl Drop for Held {
    fn drop(&mut self) {
        // The handle was begun, and no call follows.
        unsafe { library::fonnalich_end(&mut *self.at) };
    }
}
