//! reqwest over a client of this crate, against a site on loopback.

use fonnalich::{Client, Rules};
use fonnalich_http::{now, SharedClient};
use std::io::{BufRead, BufReader, Write};
use std::net::{SocketAddr, TcpListener, TcpStream};
use std::sync::{mpsc, Arc};
use std::thread;

const LIST: &str = "com\norg\n";

/// A site on loopback, which tells the path and the `Cookie` header of each request.
struct Site {
    address: SocketAddr,
    heard: mpsc::Receiver<(String, Option<String>)>,
}

/// The fields of a page.
fn fields(path: &str) -> &'static str {
    match path {
        "/login" => "Set-Cookie: user=ann; Path=/\r\nSet-Cookie: cart=3; Path=/cart\r\nSet-Cookie: x=1; Domain=com\r\n",
        "/domain" => "Set-Cookie: a=1; Domain=shop.com; Path=/; Max-Age=60\r\n",
        "/enter" => "Location: /\r\nSet-Cookie: user=ann; Path=/\r\n",
        "/leave" => "Location: /\r\nSet-Cookie: user=; Path=/; Max-Age=0\r\n",
        _ => "",
    }
}

fn serve(mut stream: TcpStream, told: &mpsc::Sender<(String, Option<String>)>) {
    let head: Vec<_> = BufReader::new(&stream).lines().map_while(Result::ok).take_while(|it| !it.is_empty()).collect();
    let path = head[0].split(' ').nth(1).unwrap().to_owned();
    let cookie = head.iter().find_map(|line| line.strip_prefix("cookie: ").or_else(|| line.strip_prefix("cookie:")));
    let status = if fields(&path).contains("Location") { "302 Found" } else { "200 OK" };
    let answer = format!("HTTP/1.1 {status}\r\n{}Content-Length: 0\r\nConnection: close\r\n\r\n", fields(&path));
    told.send((path, cookie.map(str::to_owned))).unwrap();
    stream.write_all(answer.as_bytes()).unwrap();
}

impl Site {
    fn new() -> Site {
        let listener = TcpListener::bind("127.0.0.1:0").unwrap();
        let (address, (told, heard)) = (listener.local_addr().unwrap(), mpsc::channel());
        thread::spawn(move || listener.incoming().for_each(|stream| serve(stream.unwrap(), &told)));
        Site { address, heard }
    }

    /// The `Cookie` headers of what a visit asked for.
    fn heard(&self) -> Vec<(String, Option<String>)> {
        self.heard.try_iter().collect()
    }

    fn url(&self, host: &str, path: &str) -> String {
        format!("http://{host}:{}{path}", self.address.port())
    }

    fn http(&self, client: &SharedClient) -> reqwest::blocking::Client {
        let builder = reqwest::blocking::Client::builder().no_proxy().cookie_provider(Arc::new(client.clone()));
        let hosts = ["shop.com", "a.shop.com", "other.com"];
        hosts.iter().fold(builder, |builder, host| builder.resolve(host, self.address)).build().unwrap()
    }

    /// The `Cookie` headers of a visit.
    fn visit(&self, client: &SharedClient, host: &str, path: &str) -> Vec<Option<String>> {
        self.http(client).get(self.url(host, path)).send().unwrap();
        self.heard().into_iter().map(|it| it.1).collect()
    }
}

fn shared() -> SharedClient {
    SharedClient::new(Client::with_rules(LIST, Rules::browser()).unwrap())
}

fn cookie(text: &str) -> Option<String> {
    Some(text.to_owned())
}

// The order of the pairs is that of RFC 6265, section 5.4: the longer path first.
#[test]
fn keeps_each_line_of_a_response() {
    let (site, client) = (Site::new(), shared());
    assert_eq!(site.visit(&client, "shop.com", "/login"), [None]);
    assert_eq!(site.visit(&client, "shop.com", "/"), [cookie("user=ann")]);
    assert_eq!(site.visit(&client, "shop.com", "/cart"), [cookie("cart=3; user=ann")]);
    assert_eq!(site.visit(&client, "other.com", "/"), [None]);
}

#[test]
fn sends_a_cookie_of_a_domain_below_it() {
    let (site, client) = (Site::new(), shared());
    site.visit(&client, "shop.com", "/domain");
    assert_eq!(site.visit(&client, "a.shop.com", "/"), [cookie("a=1")]);
    assert_eq!(site.visit(&client, "other.com", "/"), [None]);
}

#[test]
fn sends_what_a_redirect_set() {
    let (site, client) = (Site::new(), shared());
    assert_eq!(site.visit(&client, "shop.com", "/enter"), [None, cookie("user=ann")]);
}

// Behind a redirect that ended a cookie, it isn't sent again.
#[test]
fn sends_nothing_that_a_redirect_ended() {
    let (site, client) = (Site::new(), shared());
    site.visit(&client, "shop.com", "/enter");
    assert_eq!(site.visit(&client, "shop.com", "/leave"), [cookie("user=ann"), cookie("")]);
    assert_eq!(site.visit(&client, "shop.com", "/"), [cookie("")]);
    assert_eq!(site.visit(&client, "other.com", "/"), [None]);
}

#[test]
fn is_one_client_for_all() {
    let (site, client) = (Site::new(), shared());
    site.visit(&client, "shop.com", "/domain");
    let url = site.url("shop.com", "/");
    assert_eq!(client.with(|client| client.header(&url, now())).unwrap(), b"a=1");
    let saved = client.with(|client| client.save(now())).unwrap();
    let loaded = SharedClient::new(Client::load(LIST, &saved, now()).unwrap());
    assert_eq!(site.visit(&loaded, "shop.com", "/"), [cookie("a=1")]);
    client.with(|client| client.receive(&url, &["b=2; Path=/"], now())).unwrap();
    assert_eq!(site.visit(&client, "shop.com", "/"), [cookie("a=1; b=2")]);
}

#[test]
fn lets_a_requests_own_field_go_first() {
    let (site, client) = (Site::new(), shared());
    site.visit(&client, "shop.com", "/login");
    let request = site.http(&client).get(site.url("shop.com", "/")).header("cookie", "own=1");
    request.send().unwrap();
    assert_eq!(site.heard(), [("/".to_owned(), cookie("own=1"))]);
}

// A saved text of another hand, with a further field of the request in a value.
#[test]
fn sends_no_cookie_where_it_is_refused() {
    let (site, client) = (Site::new(), shared());
    site.visit(&client, "shop.com", "/domain");
    let saved = String::from_utf8(client.with(|client| client.save(now())).unwrap()).unwrap();
    let saved = saved.replace("a=1", r"a=1\r\nX-Evil: 1");
    let client = SharedClient::new(Client::load(LIST, saved.as_bytes(), now()).unwrap());
    assert_eq!(site.visit(&client, "shop.com", "/"), [None]);
}

#[test]
fn shows_no_cookie() {
    assert_eq!(format!("{:?}", shared()), "SharedClient { .. }");
}
