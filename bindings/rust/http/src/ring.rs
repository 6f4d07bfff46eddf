//! Keys that change while a site runs.

use fonnalich::{Error, Key, KeyRing};
use std::fmt;
use std::sync::{Arc, PoisonError, RwLock};

/// A ring of keys that changes while a site runs, without a log-in lost. A copy is the same ring.
///
/// A session has the ring as it is when the session is opened.
///
/// ```
/// use fonnalich::{Key, KeyRing};
/// use fonnalich_http::SharedKeyRing;
///
/// let (now, week) = (1_700_000_000, 7 * 24 * 3600);
/// let keys = SharedKeyRing::new(Key::generate());
/// let kept_by_a_timer = keys.clone();
/// kept_by_a_timer.rotate(&Key::generate(), now, Some(now + week))?;
/// assert_eq!(keys.ring().places(), 2);
/// # Ok::<(), fonnalich::Error>(())
/// ```
#[derive(Clone)]
pub struct SharedKeyRing {
    ring: Arc<RwLock<KeyRing>>,
}

impl SharedKeyRing {
    /// Takes a [`Key`] or a [`KeyRing`].
    pub fn new(ring: impl Into<KeyRing>) -> SharedKeyRing {
        SharedKeyRing { ring: Arc::new(RwLock::new(ring.into())) }
    }

    /// The ring as it is now.
    pub fn ring(&self) -> KeyRing {
        self.ring.read().unwrap_or_else(PoisonError::into_inner).clone()
    }

    /// Makes `new` the current key, as [`KeyRing::rotate`]: sessions that are opened from here on have it.
    pub fn rotate(&self, new: &Key, now: i64, keep_until: Option<i64>) -> Result<(), Error> {
        // (a ring is whole between two of its calls, whoever panicked)
        self.ring.write().unwrap_or_else(PoisonError::into_inner).rotate(new, now, keep_until)
    }

    /// Puts another ring in its place, as one that was read from a file.
    pub fn replace(&self, ring: impl Into<KeyRing>) {
        let ring = ring.into();
        *self.ring.write().unwrap_or_else(PoisonError::into_inner) = ring;
    }
}

impl From<Key> for SharedKeyRing {
    fn from(key: Key) -> SharedKeyRing {
        SharedKeyRing::new(key)
    }
}

impl From<&Key> for SharedKeyRing {
    fn from(key: &Key) -> SharedKeyRing {
        SharedKeyRing::new(key)
    }
}

impl From<KeyRing> for SharedKeyRing {
    fn from(ring: KeyRing) -> SharedKeyRing {
        SharedKeyRing::new(ring)
    }
}

impl From<&KeyRing> for SharedKeyRing {
    fn from(ring: &KeyRing) -> SharedKeyRing {
        SharedKeyRing::new(ring)
    }
}

/// The same ring.
impl From<&SharedKeyRing> for SharedKeyRing {
    fn from(shared: &SharedKeyRing) -> SharedKeyRing {
        shared.clone()
    }
}

/// The ring as it is now.
impl From<SharedKeyRing> for KeyRing {
    fn from(shared: SharedKeyRing) -> KeyRing {
        shared.ring()
    }
}

/// The ring as it is now.
impl From<&SharedKeyRing> for KeyRing {
    fn from(shared: &SharedKeyRing) -> KeyRing {
        shared.ring()
    }
}

/// Shows no byte of a key.
impl fmt::Debug for SharedKeyRing {
    fn fmt(&self, to: &mut fmt::Formatter<'_>) -> fmt::Result {
        to.debug_tuple("SharedKeyRing").field(&self.ring()).finish()
    }
}
