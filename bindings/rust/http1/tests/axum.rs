//! The extractor, in the routes of axum.

use axum::extract::{FromRef, Request};
use axum::response::{IntoResponse, Response};
use axum::routing::{get, MethodRouter};
use axum::{body::Body, Router};
use fonnalich::{EndingWay, Error, Key, KeyRing, Way};
use fonnalich_http::{now, Refusal, RequestSession, SharedKeyRing};
use http::header::{HeaderValue, COOKIE, SET_COOKIE};
use http::StatusCode;
use http_body_util::BodyExt;
use tower::ServiceExt;

/// A state that has more than the key.
#[derive(Clone)]
struct State(Key);

impl FromRef<State> for Key {
    fn from_ref(state: &State) -> Key {
        state.0.clone()
    }
}

fn key() -> Key {
    Key::from(&std::array::from_fn::<u8, 64, _>(|i| i as u8))
}

/// The status, the lines and the body of a page's response to a request with these `Cookie` fields.
fn ask(page: MethodRouter<State>, key: Key, fields: &[&str]) -> (StatusCode, Vec<String>, String) {
    asked(Router::new().route("/", page).with_state(State(key)), fields)
}

fn asked(site: Router, fields: &[&str]) -> (StatusCode, Vec<String>, String) {
    let mut request = Request::new(Body::empty());
    for field in fields {
        request.headers_mut().append(COOKIE, HeaderValue::from_str(field).unwrap());
    }
    tokio::runtime::Builder::new_current_thread().build().unwrap().block_on(async {
        let (parts, body) = site.oneshot(request).await.unwrap().into_parts();
        let lines = parts.headers.get_all(SET_COOKIE).iter().map(|line| line.to_str().unwrap().to_owned()).collect();
        let body = body.collect().await.unwrap().to_bytes();
        (parts.status, lines, String::from_utf8(body.to_vec()).unwrap())
    })
}

/// The pair of a line.
fn pair(line: &str) -> &str {
    line.split(';').next().unwrap()
}

async fn visits(mut session: RequestSession) -> Result<(RequestSession, String), Refusal> {
    let count = session.get(Way::Sealed, "__Host-count")?.map_or(0, |count| count.parse().unwrap()) + 1;
    session.set(Way::Sealed, ("__Host-count", count.to_string()))?;
    Ok((session, count.to_string()))
}

// The code is by Python's `hmac`.
async fn log_in(mut session: RequestSession) -> Result<Response, Refusal> {
    session.set(Way::Signed, ("user", "ann"))?;
    Ok(([(SET_COOKIE, "own=1")], session, "in").into_response())
}

async fn log_out(mut session: RequestSession) -> Result<RequestSession, Refusal> {
    session.remove(Way::Signed, "user")?;
    Ok(session)
}

async fn forgetful(mut session: RequestSession) -> Result<String, Refusal> {
    session.set(Way::Signed, ("user", "ann"))?;
    Ok("lost".to_owned())
}

async fn refused() -> Result<RequestSession, Refusal> {
    Err(Error::Random.into())
}

fn counting(key: Key) -> Router {
    // README: bindings/README.md
    async fn page(mut session: RequestSession) -> Result<(RequestSession, String), Refusal> {
        let count = session.get(Way::Signed, "count")?.map_or(0, |count| count.parse().unwrap_or(0)) + 1;
        session.set(Way::Signed, ("count", count.to_string()))?;
        Ok((session, format!("visit {count}")))
    }
    let site = Router::new().route("/", get(page)).with_state(key);
    // README: end
    site
}

#[test]
fn counts_visits() {
    let runtime = tokio::runtime::Builder::new_current_thread().build().unwrap();
    let response = runtime.block_on(counting(key()).oneshot(Request::new(Body::empty()))).unwrap();
    assert!(response.headers()[SET_COOKIE].to_str().unwrap().starts_with("count="));
}

#[test]
fn keeps_what_a_page_sets() {
    let mut header = String::new();
    for count in ["1", "2", "3"] {
        let (status, lines, body) = ask(get(visits), key(), &["theme=dark", &header]);
        assert_eq!((status, lines.len(), body.as_str()), (StatusCode::OK, 1, count));
        assert!(lines[0].starts_with("__Host-count=") && lines[0].ends_with("; Secure; Path=/"), "{lines:?}");
        header = pair(&lines[0]).to_owned();
    }
    assert_eq!(ask(get(visits), key(), &[&header]).2, "4");
    assert_eq!(ask(get(visits), Key::from(&[7; 64]), &[&header]).2, "1");
    for other in ["__Host-count=3", &header.replace("__Host", "%5F_Host"), &header.replace("=", "=A")] {
        assert_eq!(ask(get(visits), key(), &[other]).2, "1", "{other}");
    }
}

type Login = RequestSession<SharedKeyRing>;

/// Says who is logged in and the place of the key, and logs in anew up to an hour from then.
async fn welcome(mut session: Login) -> Result<(Login, String), Refusal> {
    let found = session.get_until_with_place(EndingWay::Sealed, "__Host-user")?;
    let (user, place) = found.unwrap_or(("ann".to_owned(), 9));
    session.set_until(EndingWay::Sealed, ("__Host-user", &user), now() + 3600)?;
    Ok((session, format!("{user} {place}")))
}

/// Says the place of the key.
async fn place(session: RequestSession<KeyRing>) -> Result<String, Refusal> {
    let found = session.get_until_with_place(EndingWay::Sealed, "__Host-user")?;
    Ok(found.map_or("none".to_owned(), |it| it.1.to_string()))
}

#[test]
fn keeps_a_session_while_keys_change() {
    let (keys, new) = (SharedKeyRing::new(key()), Key::from(&[7; 64]));
    let site: Router = Router::new().route("/", get(welcome)).with_state(keys.clone());
    let visited = |header: &str| {
        let (_, lines, body) = asked(site.clone(), &[header]);
        (body, pair(&lines[0]).to_owned())
    };
    let (text, first) = visited("");
    keys.rotate(&new, now(), None).unwrap();
    let (later, second) = visited(&first);
    assert_eq!([text, later, visited(&second).0], ["ann 9", "ann 1", "ann 0"]);
    for (ring, header, wanted) in [
        (keys.ring(), &first, "1"),
        (keys.ring(), &second, "0"),
        (KeyRing::new(&new), &second, "0"),
        (KeyRing::new(&new), &first, "none"),
        (KeyRing::with_earlier(&new, [(&key(), Some(now()))]).unwrap(), &first, "none"),
    ] {
        let site = Router::new().route("/", get(place)).with_state(ring);
        assert_eq!(asked(site, &[header]).2, wanted);
    }
}

#[test]
fn adds_its_lines_to_the_pages() {
    let signed = "user=DR8SuBlsUrDbRKVCnIMjAjDAS1re9vpW+c9wxfBEMkI%3Dann; Secure; Path=/";
    let (status, mut lines, body) = ask(get(log_in), key(), &[]);
    lines.sort();
    assert_eq!((status, lines, body.as_str()), (StatusCode::OK, vec!["own=1".to_owned(), signed.to_owned()], "in"));
    let (status, lines, body) = ask(get(log_out), key(), &[pair(signed)]);
    assert_eq!((status, lines.len(), body.as_str()), (StatusCode::OK, 1, ""));
    assert!(lines[0].starts_with("user=; Secure; Path=/; Max-Age=0; Expires="), "{lines:?}");
    assert_eq!(ask(get(forgetful), key(), &[]), (StatusCode::OK, vec![], "lost".to_owned()));
}

#[test]
fn answers_500_to_a_refusal() {
    assert_eq!(ask(get(refused), key(), &[]), (StatusCode::INTERNAL_SERVER_ERROR, vec![], String::new()));
}
