//! A login by tower and hyper: `/login?user=ann`, `/` says who visits how often, as `ann 3`, and `/logout`.
//!
//! It takes its port of loopback from PORT and the 64 random bytes of its key from the file KEY_FILE, and says
//! `listening` when it does. Who logs in isn't asked for a password.

use fonnalich::{Cookie, CookieBuilder, Error, Key, SameSite, Way};
use fonnalich_http::{SessionLayer, SharedSession};
use hyper::header::{HeaderValue, LOCATION};
use hyper::{Body, Request, Response, Server, StatusCode};
use std::net::TcpListener;
use tower::make::Shared;
use tower::ServiceBuilder;

// The browser takes such a name over https alone, of this host, for all its paths.
const LOGIN: &str = "__Host-login";
const MONTH: i64 = 30 * 24 * 60 * 60;

fn kept(user: &str, visits: u64) -> CookieBuilder {
    Cookie::build((LOGIN, format!("{user} {visits}"))).max_age(MONTH).http_only(true).same_site(SameSite::Lax)
}

/// The name that a query asks to log in: letters and digits.
fn asked(query: &str) -> Option<&str> {
    let name = query.split('&').find_map(|part| part.strip_prefix("user="))?;
    (!name.is_empty() && name.bytes().all(|byte| byte.is_ascii_alphanumeric())).then_some(name)
}

fn log_in(session: &SharedSession, query: &str) -> Result<Response<Body>, Error> {
    let Some(user) = asked(query) else { return Ok(answer(StatusCode::BAD_REQUEST, "no user")) };
    session.set(Way::Sealed, kept(user, 0))?;
    Ok(home())
}

fn log_out(session: &SharedSession) -> Result<Response<Body>, Error> {
    session.remove(Way::Sealed, LOGIN)?;
    Ok(home())
}

fn welcome(session: &SharedSession) -> Result<Response<Body>, Error> {
    let login = session.get(Way::Sealed, LOGIN)?;
    let Some((user, visits)) = login.as_deref().and_then(|login| login.split_once(' ')) else {
        return Ok(answer(StatusCode::OK, "nobody"));
    };
    let visits = visits.parse().unwrap_or(0) + 1;
    session.set(Way::Sealed, kept(user, visits))?;
    Ok(answer(StatusCode::OK, &format!("{user} {visits}")))
}

fn answer(status: StatusCode, text: &str) -> Response<Body> {
    let mut response = Response::new(Body::from(text.to_owned()));
    *response.status_mut() = status;
    response
}

/// Sends on to `/`.
fn home() -> Response<Body> {
    let mut response = answer(StatusCode::SEE_OTHER, "");
    response.headers_mut().insert(LOCATION, HeaderValue::from_static("/"));
    response
}

async fn page(request: Request<Body>) -> Result<Response<Body>, Error> {
    let session = request.extensions().get::<SharedSession>().expect("the session of the layer");
    match request.uri().path() {
        "/" => welcome(session),
        "/login" => log_in(session, request.uri().query().unwrap_or("")),
        "/logout" => log_out(session),
        _ => Ok(answer(StatusCode::NOT_FOUND, "no such page")),
    }
}

fn main() -> Result<(), Box<dyn std::error::Error>> {
    let key = Key::try_from(&std::fs::read(std::env::var("KEY_FILE")?)?[..])?;
    let listener = TcpListener::bind(("127.0.0.1", std::env::var("PORT")?.parse()?))?;
    let site = ServiceBuilder::new().layer(SessionLayer::new(key)).service_fn(page);
    tokio::runtime::Builder::new_current_thread().enable_all().build()?.block_on(async {
        let server = Server::from_tcp(listener)?.serve(Shared::new(site));
        println!("listening");
        Ok(server.await?)
    })
}
