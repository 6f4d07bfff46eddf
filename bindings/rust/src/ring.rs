//! Keys that change.

use crate::site::{Key, KEY_LENGTH};
use crate::Error;
use std::fmt;

const EARLIER_KEYS: usize = 16;
// The end of a key that has none.
const NO_END: i64 = i64::MAX;

/// A current key and at most 16 earlier ones: the current one signs and seals, and what each of them signed or sealed
/// is read while it counts.
///
/// The place of a key is 0 for the current one, 1 for the first of the earlier ones.
///
/// ```
/// use fonnalich::{Key, KeyRing, Session, Way};
///
/// let (now, week) = (1_700_000_000, 7 * 24 * 3600);
/// let mut session = Session::open("", &Key::from(&[1; 64]), now);
/// session.set(Way::Signed, ("user", "7"))?;
/// let lines = session.close()?;
///
/// let mut ring = KeyRing::new(&Key::from(&[1; 64]));
/// ring.rotate(&Key::from(&[2; 64]), now, Some(now + week))?;
/// let session = Session::open(lines[0].split(';').next().unwrap(), &ring, now + 1);
/// assert_eq!(session.get_with_place(Way::Signed, "user")?, Some(("7".to_owned(), 1)));
/// # Ok::<(), fonnalich::Error>(())
/// ```
#[derive(Clone, PartialEq, Eq)]
pub struct KeyRing {
    // The current key, and behind it the earlier ones; the ends of these.
    keys: Vec<[u8; KEY_LENGTH]>,
    ends: Vec<i64>,
}

impl KeyRing {
    /// The ring of one key.
    pub fn new(current: &Key) -> KeyRing {
        KeyRing { keys: vec![current.0], ends: Vec::new() }
    }

    /// The ring of a current key and earlier ones, as they were kept elsewhere, each with the second from which it
    /// counts no more, if any. `ManyKeys` where there are over 16.
    pub fn with_earlier<'k>(
        current: &Key,
        earlier: impl IntoIterator<Item = (&'k Key, Option<i64>)>,
    ) -> Result<KeyRing, Error> {
        let mut ring = KeyRing::new(current);
        for (key, end) in earlier {
            ring.keys.push(key.0);
            ring.ends.push(number(end));
        }
        if ring.ends.len() > EARLIER_KEYS {
            return Err(Error::ManyKeys);
        }
        Ok(ring)
    }

    /// Makes `new` the current key. The one that was becomes the first of the earlier ones, until `keep_until`, if any;
    /// those that no longer count at the second `now` are dropped. `ManyKeys` where over 16 would be left; the ring is
    /// unchanged then.
    pub fn rotate(&mut self, new: &Key, now: i64, keep_until: Option<i64>) -> Result<(), Error> {
        let ends = std::iter::once(number(keep_until)).chain(self.ends.iter().copied());
        let kept: Vec<_> = self.keys.iter().copied().zip(ends).filter(|it| it.1 == NO_END || now < it.1).collect();
        if kept.len() > EARLIER_KEYS {
            return Err(Error::ManyKeys);
        }
        self.keys = std::iter::once(new.0).chain(kept.iter().map(|it| it.0)).collect();
        self.ends = kept.iter().map(|it| it.1).collect();
        Ok(())
    }

    /// How many keys there are: their places are below it.
    pub fn places(&self) -> usize {
        self.keys.len()
    }

    pub(crate) fn keys(&self) -> &[u8] {
        self.keys.as_flattened()
    }

    pub(crate) fn ends(&self) -> &[i64] {
        &self.ends
    }
}

// The number of an end. The last second is no moment, as those before it.
fn number(end: Option<i64>) -> i64 {
    end.map_or(NO_END, |second| second.min(NO_END - 1))
}

/// The ring of one key.
impl From<Key> for KeyRing {
    fn from(key: Key) -> KeyRing {
        KeyRing::new(&key)
    }
}

/// The ring of one key.
impl From<&Key> for KeyRing {
    fn from(key: &Key) -> KeyRing {
        KeyRing::new(key)
    }
}

impl From<&KeyRing> for KeyRing {
    fn from(ring: &KeyRing) -> KeyRing {
        ring.clone()
    }
}

/// Shows no byte of a key.
impl fmt::Debug for KeyRing {
    fn fmt(&self, to: &mut fmt::Formatter<'_>) -> fmt::Result {
        to.debug_struct("KeyRing").field("ends", &self.ends).finish_non_exhaustive()
    }
}

#[cfg(test)]
mod tests {
    use super::*;

    fn key(byte: u8) -> Key {
        Key::from(&[byte; 64])
    }

    #[test]
    fn rotates() {
        let mut ring = KeyRing::from(&key(0));
        ring.rotate(&key(1), 100, Some(200)).unwrap();
        ring.rotate(&key(2), 150, None).unwrap();
        assert_eq!(ring, KeyRing::with_earlier(&key(2), [(&key(1), None), (&key(0), Some(200))]).unwrap());
        assert_eq!(ring.places(), 3);
        ring.rotate(&key(3), 200, Some(300)).unwrap();
        assert_eq!(ring, KeyRing::with_earlier(&key(3), [(&key(2), Some(300)), (&key(1), None)]).unwrap());
        ring.rotate(&key(4), 300, Some(300)).unwrap();
        assert_eq!(ring, KeyRing::with_earlier(&key(4), [(&key(1), None)]).unwrap());
    }

    #[test]
    fn has_at_most_16_earlier_keys() {
        let old = key(0);
        let mut ring = KeyRing::with_earlier(&key(1), vec![(&old, None); 16]).unwrap();
        assert_eq!(KeyRing::with_earlier(&key(1), vec![(&old, None); 17]), Err(Error::ManyKeys));
        let before = ring.clone();
        assert_eq!(ring.rotate(&key(2), 0, None), Err(Error::ManyKeys));
        assert_eq!(ring, before);
        ring.rotate(&key(2), 0, Some(0)).unwrap();
        assert_eq!(ring.places(), 17);
    }

    #[test]
    fn shows_no_key() {
        assert_eq!(format!("{:?}", KeyRing::from(&key(77))), "KeyRing { ends: [], .. }");
    }
}
