//! The sessions and clients of `fonnalich` in the types of `http`: a [`Session`](fonnalich::Session) from and into its
//! headers, by the feature `tower` a layer that does so, and by `reqwest` a client that keeps its cookies. Over `http`
//! 1 there is an extractor too, by the feature `axum`. Each takes a [`Key`](fonnalich::Key), a
//! [`KeyRing`](fonnalich::KeyRing) of several, or a [`SharedKeyRing`], whose keys change while a site runs.
//!
//! ```
//! use fonnalich::{Key, Session, Way};
//! use fonnalich_http::{now, HttpSession};
//!
//! let (key, request, mut response) = (Key::generate(), http::Request::new(()), http::Response::new(()));
//! let mut session = Session::from_headers(request.headers(), &key, now());
//! session.set(Way::Signed, ("user", "ann"))?;
//! session.close_into(response.headers_mut())?;
//! assert_eq!(response.headers().get_all(http::header::SET_COOKIE).iter().count(), 1);
//! # Ok::<(), fonnalich::Error>(())
//! ```

#![forbid(unsafe_code)]

#[cfg(feature = "axum")]
mod extract;
mod headers;
#[cfg(feature = "tower")]
mod layer;
mod ring;
#[cfg(feature = "reqwest")]
mod shared;

#[cfg(feature = "axum")]
pub use extract::{Refusal, RequestSession};
pub use headers::HttpSession;
#[cfg(feature = "tower")]
pub use layer::{SessionFuture, SessionLayer, SessionService, SharedSession};
pub use ring::SharedKeyRing;
#[cfg(feature = "reqwest")]
pub use shared::SharedClient;

use std::time::{SystemTime, UNIX_EPOCH};

/// The clock's second since 1970.
pub fn now() -> i64 {
    let seconds = |time: std::time::Duration| i64::try_from(time.as_secs()).unwrap_or(i64::MAX);
    SystemTime::now().duration_since(UNIX_EPOCH).map_or_else(|before| -seconds(before.duration()), seconds)
}
