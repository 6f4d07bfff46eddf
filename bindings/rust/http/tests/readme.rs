//! The blocks of the page, which run as they stand.

use fonnalich::{Client, Cookie, EndingWay, Error, Key, List, Session, Way};
use fonnalich_http::{now, HttpSession, SessionLayer, SharedClient, SharedKeyRing, SharedSession};
use http::{Request, Response};
use std::sync::Arc;
use tower::{ServiceBuilder, ServiceExt};

fn cart(request: &Request<String>, key: Key, response: &mut Response<String>) -> Result<(), Error> {
    // README: bindings/README.md
    let mut session = Session::from_headers(request.headers(), &key, now());
    session.set(Way::Sealed, Cookie::build(("__Host-cart", "3")).max_age(60))?;
    session.close_into(response.headers_mut())?;
    // README: end
    Ok(())
}

#[test]
fn fills_the_cart() {
    let (key, mut response) = (Key::generate(), Response::default());
    cart(&Request::default(), key.clone(), &mut response).unwrap();
    let line = response.headers()["set-cookie"].to_str().unwrap();
    let session = Session::open(line.split(';').next().unwrap(), &key, now());
    assert_eq!(session.get(Way::Sealed, "__Host-cart").unwrap().as_deref(), Some("3"));
}

async fn visited(key: Key) -> Result<Response<String>, Error> {
    // README: bindings/README.md
    async fn page(request: Request<String>) -> Result<Response<String>, Error> {
        let session = request.extensions().get::<SharedSession>().expect("the session of the layer");
        let count = session.get(Way::Signed, "count")?.map_or(0, |count| count.parse().unwrap_or(0)) + 1;
        session.set(Way::Signed, ("count", count.to_string()))?;
        Ok(Response::new(format!("visit {count}")))
    }
    let site = ServiceBuilder::new().layer(SessionLayer::new(key)).service_fn(page);
    // README: end
    site.oneshot(Request::default()).await
}

#[test]
fn counts_visits() {
    let runtime = tokio::runtime::Builder::new_current_thread().build().unwrap();
    let response = runtime.block_on(visited(Key::generate())).unwrap();
    assert_eq!(response.body(), "visit 1");
    assert!(response.headers()["set-cookie"].to_str().unwrap().starts_with("count="));
}

async fn welcomed(key: Key, request: Request<String>) -> Result<Response<String>, Error> {
    // README: bindings/README.md
    async fn welcome(request: Request<String>) -> Result<Response<String>, Error> {
        let session = request.extensions().get::<SharedSession>().expect("the session of the layer");
        let Some(user) = session.get_until(EndingWay::Sealed, "user")? else { return Ok(Response::default()) };
        session.set_until(EndingWay::Sealed, ("user", &user), now() + 30 * 60)?;
        Ok(Response::new(user))
    }
    let keys = SharedKeyRing::new(key);
    let site = ServiceBuilder::new().layer(SessionLayer::new(&keys)).service_fn(welcome);
    keys.rotate(&Key::generate(), now(), Some(now() + 7 * 24 * 60 * 60))?;
    // README: end
    site.oneshot(request).await
}

#[test]
fn welcomes_by_an_earlier_key() {
    let (key, mut request) = (Key::generate(), Request::<String>::default());
    let mut session = Session::open("", &key, now());
    session.set_until(EndingWay::Sealed, ("user", "ann"), now() + 3600).unwrap();
    let header = session.close().unwrap()[0].split(';').next().unwrap().to_owned();
    request.headers_mut().insert("cookie", header.parse().unwrap());
    let runtime = tokio::runtime::Builder::new_current_thread().build().unwrap();
    let response = runtime.block_on(welcomed(key, request)).unwrap();
    assert_eq!((response.body().as_str(), response.headers().len()), ("ann", 1));
}

fn saved() -> Result<Vec<u8>, Box<dyn std::error::Error>> {
    // README: bindings/README.md
    let client = SharedClient::new(Client::new(&List::system()?)?);
    let http = reqwest::Client::builder().cookie_provider(Arc::new(client.clone())).build()?;
    let saved = client.with(|client| client.save(now()))?;
    // README: end
    drop(http);
    Ok(saved)
}

#[test]
fn saves_a_client() {
    let is_loaded = |saved: Vec<u8>| Client::load("com\n", &saved, now()).is_ok();
    assert_eq!(saved().map(is_loaded).ok(), List::system().is_ok().then_some(true));
}
