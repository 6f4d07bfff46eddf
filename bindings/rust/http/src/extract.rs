//! An extractor of axum.

use crate::{now, HttpSession};
use async_trait::async_trait;
use axum_core::extract::{FromRef, FromRequestParts};
use axum_core::response::{IntoResponse, IntoResponseParts, Response, ResponseParts};
use fonnalich::{Error, Key, KeyRing, Session};
use http::request::Parts;
use http::StatusCode;
use std::convert::Infallible;
use std::fmt;
use std::marker::PhantomData;
use std::ops::{Deref, DerefMut};

/// The session of a request, which a handler of axum takes as an argument and hands back with its response, as it does
/// with the `PrivateCookieJar` of `axum-extra`. Its keys are of the router's state: a [`Key`], or by another `K` a
/// [`KeyRing`] or a [`SharedKeyRing`](crate::SharedKeyRing).
///
/// The lines of one that isn't handed back are lost. So are they where an array with an own `Set-Cookie` stands behind
/// it in the response, since axum puts that in the place of all before it: the session comes last, or `AppendHeaders`.
///
/// ```
/// use axum::{routing::get, Router};
/// use fonnalich::{Key, Way};
/// use fonnalich_http::{Refusal, RequestSession};
///
/// async fn page(mut session: RequestSession) -> Result<(RequestSession, String), Refusal> {
///     let count = session.get(Way::Signed, "count")?.map_or(0, |count| count.parse().unwrap_or(0)) + 1;
///     session.set(Way::Signed, ("count", count.to_string()))?;
///     Ok((session, format!("visit {count}")))
/// }
///
/// let site: Router = Router::new().route("/", get(page)).with_state(Key::generate());
/// ```
///
/// Keys that change while it serves:
///
/// ```
/// use axum::{routing::get, Router};
/// use fonnalich::{EndingWay, Key};
/// use fonnalich_http::{now, Refusal, RequestSession, SharedKeyRing};
///
/// type Visit = RequestSession<SharedKeyRing>;
///
/// async fn page(mut session: Visit) -> Result<(Visit, String), Refusal> {
///     let user = session.get_until(EndingWay::Sealed, "__Host-user")?.unwrap_or("nobody".to_owned());
///     session.set_until(EndingWay::Sealed, ("__Host-user", &user), now() + 30 * 60)?;
///     Ok((session, user))
/// }
///
/// let keys = SharedKeyRing::new(Key::generate());
/// let site: Router = Router::new().route("/", get(page)).with_state(keys.clone());
/// keys.rotate(&Key::generate(), now(), Some(now() + 30 * 60))?;
/// # Ok::<(), fonnalich::Error>(())
/// ```
pub struct RequestSession<K = Key> {
    session: Session,
    keys: PhantomData<fn() -> K>,
}

impl<K> Deref for RequestSession<K> {
    type Target = Session;

    fn deref(&self) -> &Session {
        &self.session
    }
}

impl<K> DerefMut for RequestSession<K> {
    fn deref_mut(&mut self) -> &mut Session {
        &mut self.session
    }
}

/// As [`Session`]: shows neither the keys, nor what was set.
impl<K> fmt::Debug for RequestSession<K> {
    fn fmt(&self, to: &mut fmt::Formatter<'_>) -> fmt::Result {
        to.debug_tuple("RequestSession").field(&self.session).finish()
    }
}

#[async_trait]
impl<S, K> FromRequestParts<S> for RequestSession<K>
where
    S: Send + Sync,
    K: FromRef<S> + Into<KeyRing>,
{
    type Rejection = Infallible;

    async fn from_request_parts(parts: &mut Parts, state: &S) -> Result<RequestSession<K>, Infallible> {
        let session = Session::from_headers(&parts.headers, K::from_ref(state), now());
        Ok(RequestSession { session, keys: PhantomData })
    }
}

impl<K> IntoResponseParts for RequestSession<K> {
    type Error = Refusal;

    fn into_response_parts(self, mut parts: ResponseParts) -> Result<ResponseParts, Refusal> {
        self.close_into(parts.headers_mut())?;
        Ok(parts)
    }
}

impl<K> IntoResponse for RequestSession<K> {
    fn into_response(self) -> Response {
        (self, ()).into_response()
    }
}

/// What a call of a session was refused for. As a response it is 500 without a body.
#[derive(Clone, Copy, Debug, PartialEq, Eq)]
pub struct Refusal(pub Error);

impl From<Error> for Refusal {
    fn from(error: Error) -> Refusal {
        Refusal(error)
    }
}

impl IntoResponse for Refusal {
    fn into_response(self) -> Response {
        StatusCode::INTERNAL_SERVER_ERROR.into_response()
    }
}
