//! A login by axum, whose keys change and whose logins end 30 minutes after the last visit: `/login?user=ann`, `/` says
//! who visits how often, as `ann 3`, and `/logout`.
//!
//! It takes its port of loopback from PORT, and says `listening` when it does. The file KEY_FILE has its keys, of 64
//! random bytes each, the newest first: put a new one before them to rotate, as `examples/wsgi-login/app.py rotate`
//! does. Who logs in isn't asked for a password.

use axum::extract::RawQuery;
use axum::http::StatusCode;
use axum::response::{IntoResponse, Redirect, Response};
use axum::{routing::get, Router};
use fonnalich::{Cookie, EndingWay, Key, KeyRing, SameSite, Way};
use fonnalich_http::{now, Refusal, RequestSession, SharedKeyRing};
use std::sync::Arc;
use tokio::net::TcpListener;

// The browser takes such a name over https alone, of this host, for all its paths.
const LOGIN: &str = "__Host-login";
const LIFE: i64 = 30 * 60;

/// The file of the keys, which each request reads, and what it had last.
#[derive(Clone)]
struct KeyFile {
    path: Arc<str>,
    last: SharedKeyRing,
}

impl KeyFile {
    fn open(path: &str) -> Result<KeyFile, Box<dyn std::error::Error>> {
        Ok(KeyFile { path: path.into(), last: SharedKeyRing::new(ring(path)?) })
    }
}

/// The keys of a file. What each set is read for as long as it stands there.
fn ring(path: &str) -> Result<KeyRing, Box<dyn std::error::Error>> {
    let keys: Vec<_> = std::fs::read(path)?.chunks_exact(64).map(Key::from).collect();
    let (current, earlier) = keys.split_first().ok_or("a file without a key")?;
    Ok(KeyRing::with_earlier(current, earlier.iter().map(|key| (key, None)))?)
}

/// The keys as they stand in the file; those that it had last where it can't be read.
impl From<KeyFile> for KeyRing {
    fn from(file: KeyFile) -> KeyRing {
        if let Ok(ring) = ring(&file.path) {
            file.last.replace(ring);
        }
        file.last.ring()
    }
}

type Visit = RequestSession<KeyFile>;

/// Seals who visits, by the newest key, until half an hour from now.
fn keep(session: &mut Visit, user: &str, visits: u64) -> Result<(), Refusal> {
    let cookie = Cookie::build((LOGIN, format!("{user} {visits}"))).http_only(true).same_site(SameSite::Lax);
    Ok(session.set_until(EndingWay::Sealed, cookie, now() + LIFE)?)
}

/// The name that a query asks to log in: letters and digits.
fn asked(query: &str) -> Option<&str> {
    let name = query.split('&').find_map(|part| part.strip_prefix("user="))?;
    (!name.is_empty() && name.bytes().all(|byte| byte.is_ascii_alphanumeric())).then_some(name)
}

async fn log_in(mut session: Visit, RawQuery(query): RawQuery) -> Result<Response, Refusal> {
    let Some(user) = query.as_deref().and_then(asked) else {
        return Ok((StatusCode::BAD_REQUEST, "no user").into_response());
    };
    keep(&mut session, user, 0)?;
    Ok((session, Redirect::to("/")).into_response())
}

async fn log_out(mut session: Visit) -> Result<(Visit, Redirect), Refusal> {
    session.remove(Way::Sealed, LOGIN)?;
    Ok((session, Redirect::to("/")))
}

async fn welcome(mut session: Visit) -> Result<(Visit, String), Refusal> {
    let login = session.get_until(EndingWay::Sealed, LOGIN)?;
    let Some((user, visits)) = login.as_deref().and_then(|login| login.split_once(' ')) else {
        return Ok((session, "nobody".to_owned()));
    };
    let visits = visits.parse().unwrap_or(0) + 1;
    keep(&mut session, user, visits)?;
    Ok((session, format!("{user} {visits}")))
}

fn main() -> Result<(), Box<dyn std::error::Error>> {
    let keys = KeyFile::open(&std::env::var("KEY_FILE")?)?;
    let port: u16 = std::env::var("PORT")?.parse()?;
    let site = Router::new()
        .route("/", get(welcome))
        .route("/login", get(log_in))
        .route("/logout", get(log_out))
        .with_state(keys);
    tokio::runtime::Builder::new_current_thread().enable_all().build()?.block_on(async {
        let listener = TcpListener::bind(("127.0.0.1", port)).await?;
        println!("listening");
        Ok(axum::serve(listener, site).await?)
    })
}
