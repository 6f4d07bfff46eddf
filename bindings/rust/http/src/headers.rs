//! A session from and into headers.

use fonnalich::{Error, KeyRing, Session};
use http::header::{HeaderMap, HeaderValue, COOKIE, SET_COOKIE};

/// A session from the headers of a request, and into those of its response.
pub trait HttpSession: Sized {
    /// A session on all `Cookie` fields of a request at this second since 1970, with a [`Key`](fonnalich::Key), a
    /// [`KeyRing`] or a [`SharedKeyRing`](crate::SharedKeyRing). HTTP/2 may split the fields, and they are one text,
    /// joined by `; ` (RFC 9113, section 8.2.3).
    fn from_headers(headers: &HeaderMap, keys: impl Into<KeyRing>, now: i64) -> Self;

    /// Adds a `Set-Cookie` field for each cookie that was set or removed. Where that is refused none is added.
    fn close_into(&self, headers: &mut HeaderMap) -> Result<(), Error>;
}

impl HttpSession for Session {
    fn from_headers(headers: &HeaderMap, keys: impl Into<KeyRing>, now: i64) -> Session {
        let fields: Vec<_> = headers.get_all(COOKIE).iter().map(HeaderValue::as_bytes).collect();
        Session::open(fields.join(&b"; "[..]), keys, now)
    }

    fn close_into(&self, headers: &mut HeaderMap) -> Result<(), Error> {
        let fields: Result<Vec<_>, _> = self.close()?.into_iter().map(HeaderValue::try_from).collect();
        // (no line has a control character, since all that is set is percent-encoded)
        for field in fields.map_err(|_| Error::Line)? {
            headers.append(SET_COOKIE, field);
        }
        Ok(())
    }
}
