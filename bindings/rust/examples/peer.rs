//! What `bindings/test` has Rust say to C, to Python and to a site: the words of `bindings/c/peer.c`.

use fonnalich::{Client, Cookie, Key, Session, Way};
use std::error::Error;
use std::io::{Read, Write};
use std::net::TcpStream;
use std::time::{SystemTime, UNIX_EPOCH};

const LIST: &str = "com\norg\n";
const URL: &str = "https://example.com/";
// RFC 6265, section 3.1, with an end.
const LINES: [&str; 2] =
    ["SID=31d4d96e407aad42; Path=/; Secure; Max-Age=60", "lang=en-US; Path=/; Domain=example.com; Max-Age=60"];
const NOW: i64 = 1_700_000_000;
const WAYS: [Way; 5] = [Way::Plain, Way::Host, Way::Secure, Way::Signed, Way::Sealed];

fn key() -> Key {
    Key::from(&std::array::from_fn::<u8, 64, _>(|i| i as u8))
}

/// What a site on loopback answers to a visit of one of its pages, and of the page that it sends on to.
fn page(client: &mut Client, port: &str, path: &str) -> Result<String, Box<dyn Error>> {
    let url = format!("http://localhost:{port}{path}");
    let now = SystemTime::now().duration_since(UNIX_EPOCH)?.as_secs() as i64;
    let header = String::from_utf8(client.header(&url, now)?)?;
    let cookie = if header.is_empty() { header } else { format!("Cookie: {header}\r\n") };
    let (mut site, mut answer) = (TcpStream::connect(format!("127.0.0.1:{port}"))?, String::new());
    site.write_all(format!("GET {path} HTTP/1.0\r\nHost: localhost:{port}\r\n{cookie}\r\n").as_bytes())?;
    site.read_to_string(&mut answer)?;
    let (head, body) = answer.split_once("\r\n\r\n").ok_or("no answer")?;
    let lines: Vec<_> = head.lines().filter_map(|line| line.strip_prefix("Set-Cookie: ")).collect();
    client.receive(&url, &lines, now)?;
    let next = head.lines().find_map(|line| line.strip_prefix("Location: "));
    next.map_or(Ok(body.to_owned()), |next| page(client, port, next))
}

fn visit(port: &str) -> Result<String, Box<dyn Error>> {
    let mut client = Client::new(LIST)?;
    ["/", "/login?user=ann", "/", "/leave"].iter().map(|path| page(&mut client, port, path)).collect()
}

fn set() -> Result<String, Box<dyn Error>> {
    let mut session = Session::open("", &key(), NOW);
    for (i, way) in WAYS.into_iter().enumerate() {
        session.set(way, Cookie::new(format!("n {i}"), format!("é; {i}")))?;
    }
    let lines = session.close()?;
    Ok(lines.iter().filter_map(|line| line.split(';').next()).collect::<Vec<_>>().join("; "))
}

fn get(header: &str) -> Result<String, Box<dyn Error>> {
    let session = Session::open(header, &key(), NOW);
    let read = |(i, way)| Ok(session.get(way, &format!("n {i}"))?.unwrap_or("-".to_owned()) + "\n");
    WAYS.into_iter().enumerate().map(read).collect()
}

fn save() -> Result<String, Box<dyn Error>> {
    let mut client = Client::new(LIST)?;
    client.receive(URL, &LINES, NOW)?;
    Ok(String::from_utf8(client.save(NOW)?)?)
}

fn load(saved: &str) -> Result<String, Box<dyn Error>> {
    Ok(String::from_utf8(Client::load(LIST, saved.as_bytes(), NOW + 1)?.header(URL, NOW + 1)?)?)
}

fn main() -> Result<(), Box<dyn Error>> {
    let words: Vec<_> = std::env::args().skip(1).collect();
    let said = match words.iter().map(String::as_str).collect::<Vec<_>>()[..] {
        ["visit", port] => visit(port),
        ["set"] => set(),
        ["get", header] => get(header),
        ["save"] => save(),
        ["load", saved] => load(saved),
        _ => Err("no such word".into()),
    };
    print!("{}", said?);
    Ok(())
}
