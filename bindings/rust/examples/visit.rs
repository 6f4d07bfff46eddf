//! README's visit: a site seals a cookie, a client keeps it, and the site reads it.

// README: README.md
use fonnalich::{Client, Cookie, Error, Key, Session, Way};
fn main() -> Result<(), Error> {
    let (key, url, now, mut client) = (Key::generate(), "https://shop.com/", 1_700_000_000, Client::new("com\n")?);
    let mut session = Session::open("", &key, now);
    session.set(Way::Sealed, Cookie::build(("__Host-cart", "3")).max_age(60))?;
    client.receive(url, &session.close()?, now)?;
    println!("{:?}", Session::open(client.header(url, now)?, &key, now).get(Way::Sealed, "__Host-cart")?);
    Ok(())
}
// README: end
