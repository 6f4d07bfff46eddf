//! A client that keeps the cookies of reqwest.

use crate::now;
use fonnalich::Client;
use http::header::HeaderValue;
use reqwest::cookie::CookieStore;
use reqwest::Url;
use std::collections::HashSet;
use std::fmt;
use std::sync::{Arc, Mutex, MutexGuard, PoisonError};

/// A client that a `reqwest::Client` takes as its `cookie_provider`. A copy is the same client.
///
/// What the trait [`CookieStore`] loses, and [`SharedClient::with`] gives:
///
/// - it hands over the lines of a response together, and asks for nothing, so what became of each isn't told;
/// - it has no refusal: where a call is refused, nothing is kept, or the request has no cookie;
/// - it has no moment, so that is the clock's.
///
/// At a redirect to the same host and port reqwest sends the cookies of the request before it again, where the store
/// has none. So a site that was sent a cookie gets an empty `Cookie` field from then on where none is left for it.
/// A `Cookie` field of a request's own goes out in the place of the client's, up to a redirect.
#[derive(Clone)]
pub struct SharedClient {
    kept: Arc<Mutex<Kept>>,
}

struct Kept {
    client: Client,
    // the hosts and ports that were sent a cookie
    served: HashSet<(String, Option<u16>)>,
}

impl SharedClient {
    /// Takes a client.
    pub fn new(client: Client) -> SharedClient {
        SharedClient { kept: Arc::new(Mutex::new(Kept { client, served: HashSet::new() })) }
    }

    /// What a call of the client answers, as `client.with(|client| client.save(now()))`. Requests wait meanwhile.
    pub fn with<R>(&self, call: impl FnOnce(&mut Client) -> R) -> R {
        call(&mut self.lock().client)
    }

    // (a client is whole between two of its calls, whoever panicked)
    fn lock(&self) -> MutexGuard<'_, Kept> {
        self.kept.lock().unwrap_or_else(PoisonError::into_inner)
    }
}

impl CookieStore for SharedClient {
    fn set_cookies(&self, fields: &mut dyn Iterator<Item = &HeaderValue>, url: &Url) {
        let lines: Vec<_> = fields.collect();
        // (the trait takes no refusal)
        let _ = self.with(|client| client.receive(url.as_str(), &lines, now()));
    }

    fn cookies(&self, url: &Url) -> Option<HeaderValue> {
        let mut kept = self.lock();
        let header = kept.client.header(url.as_str(), now()).unwrap_or_default();
        let site = (url.host_str().unwrap_or_default().to_owned(), url.port_or_known_default());
        if header.is_empty() {
            return kept.served.contains(&site).then(|| HeaderValue::from_static(""));
        }
        kept.served.insert(site);
        HeaderValue::try_from(header).ok()
    }
}

/// Shows no cookie.
impl fmt::Debug for SharedClient {
    fn fmt(&self, to: &mut fmt::Formatter<'_>) -> fmt::Result {
        to.debug_struct("SharedClient").finish_non_exhaustive()
    }
}
