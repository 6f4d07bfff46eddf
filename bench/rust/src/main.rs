//! Times what the Rust crates take for the rows of README's table, on the same texts as the other folders here.

use aes_gcm::aead::{AeadInPlace, KeyInit};
use aes_gcm::Aes256Gcm;
use cookie::{Cookie, CookieJar, Key};
use cookie_store::{CookieStore, RawCookie, StoreAction};
use hmac::{Hmac, Mac};
use publicsuffix::{List, Psl};
use sha2::Sha256;
use std::hint::black_box;
use std::time::{Duration, Instant};
use url::Url;

const LINE: &str = "SID=31d4d96e407aad42; Path=/; Secure; HttpOnly; SameSite=Lax";

// As in bench/store: five cookies to a host, four of which match.
const PATHS: [&str; 5] = ["/", "/", "/a", "/a", "/b"];

fn main() {
    time_cookies();
    time_ciphers();
    for size in [16, 200, 1024] {
        time_exchange(size);
    }
    time_suffixes();
    for rows in [1_000, 10_000, 100_000] {
        time_store(rows);
    }
    for rows in [1_000, 10_000] {
        time_loading(rows);
    }
}

/// The least nanoseconds of a call over two seconds of samples of a tenth of a millisecond, or of one call.
fn least_time(mut call: impl FnMut()) -> f64 {
    let begun = Instant::now();
    call();
    let calls = (100_000 / begun.elapsed().as_nanos().max(1) + 1) as u32;
    let mut least = f64::MAX;
    while begun.elapsed() < Duration::from_secs(2) {
        let from = Instant::now();
        for _ in 0..calls {
            call();
        }
        least = least.min(from.elapsed().as_nanos() as f64 / f64::from(calls));
    }
    least
}

fn report(name: &str, nanos: f64) {
    println!("{name:<40} {nanos:12.0} ns");
}

fn time_cookies() {
    for line in ["foo=bar", LINE] {
        let of = |name: &str| format!("{name} {} bytes", line.len());
        report(&of("parse"), least_time(|| {
            let cookie = Cookie::parse(black_box(line)).expect("a cookie");
            black_box(cookie.name().len() + cookie.value().len());
        }));
        report(&of("parse encoded"), least_time(|| {
            let cookie = Cookie::parse_encoded(black_box(line)).expect("a cookie");
            black_box(cookie.name().len() + cookie.value().len());
        }));
        report(&of("parse and print"), least_time(|| {
            black_box(Cookie::parse(black_box(line)).expect("a cookie").to_string());
        }));
        let cookie = Cookie::parse(line).expect("a cookie");
        report(&of("print"), least_time(|| {
            black_box(black_box(&cookie).to_string());
        }));
        report(&of("encode"), least_time(|| {
            black_box(black_box(&cookie).encoded().to_string());
        }));
    }
}

/// A jar that both cookies of an exchange were put into.
fn set_both(jar: &mut CookieJar, key: &Key, value: &str) {
    let made = |name: &'static str| Cookie::build((name, value.to_string())).path("/").secure(true);
    jar.signed_mut(key).add(made("id"));
    jar.private_mut(key).add(made("secret"));
}

/// As bench/exchange: a header's cookies are read, a signed one and a private one opened and set anew, and their lines
/// made.
fn time_exchange(size: usize) {
    let (key, value, mut first) = (Key::from(&[7; 64]), "v".repeat(size), CookieJar::new());
    set_both(&mut first, &key, &value);
    let header = first.delta().map(|it| it.stripped().encoded().to_string()).collect::<Vec<_>>().join("; ");
    report(&format!("exchange, values of {size} bytes"), least_time(|| {
        let mut jar = CookieJar::new();
        for cookie in Cookie::split_parse_encoded(black_box(header.clone())) {
            jar.add_original(cookie.expect("a cookie"));
        }
        assert!(jar.signed(&key).get("id").is_some() && jar.private(&key).get("secret").is_some());
        set_both(&mut jar, &key, &value);
        black_box(jar.delta().map(|it| it.encoded().to_string()).collect::<Vec<_>>());
    }));
}

fn time_ciphers() {
    let (key, plain) = ([0u8; 32], [0u8; 1024]);
    report("hmac of 1 KiB", least_time(|| {
        let mut mac = <Hmac<Sha256> as Mac>::new_from_slice(black_box(&key)).expect("a key");
        mac.update(black_box(&plain));
        black_box(mac.finalize().into_bytes());
    }));
    for size in [16, 1024, 65536] {
        time_sealing(&key, size);
    }
}

fn time_sealing(key: &[u8; 32], size: usize) {
    let (nonce, plain) = ([0u8; 12].into(), vec![0u8; size]);
    let mut work = plain.clone();
    report(&format!("seal of {size} bytes"), least_time(|| {
        work.copy_from_slice(&plain);
        let cipher = Aes256Gcm::new(black_box(key).into());
        black_box(cipher.encrypt_in_place_detached(&nonce, b"name", &mut work)).expect("sealed");
    }));
    let cipher = Aes256Gcm::new(key.into());
    let mut sealed = plain.clone();
    let tag = cipher.encrypt_in_place_detached(&nonce, b"name", &mut sealed).expect("sealed");
    report(&format!("open of {size} bytes"), least_time(|| {
        work.copy_from_slice(&sealed);
        let cipher = Aes256Gcm::new(black_box(key).into());
        cipher.decrypt_in_place_detached(&nonce, b"name", &mut work, &tag).expect("opened");
        black_box(&work);
    }));
}

/// The generator of bench/suffix (D. Knuth, MMIX).
struct Draw(u64);

impl Draw {
    fn below(&mut self, bound: u32) -> u32 {
        self.0 = self.0.wrapping_mul(6_364_136_223_846_793_005).wrapping_add(1_442_695_040_888_963_407);
        (self.0 >> 33) as u32 % bound
    }

    fn label(&mut self) -> String {
        let length = 2 + self.below(10);
        (0..length).map(|_| char::from(b'a' + self.below(26) as u8)).collect()
    }
}

/// A list of rules and ten names, drawn as bench/suffix draws them.
fn draw_list(count: usize) -> (String, Vec<String>) {
    let (mut draw, mut tops, mut rules, mut names) = (Draw(17), Vec::new(), String::new(), Vec::new());
    for i in 0..count {
        let rule = draw_rule(&mut draw, &mut tops);
        if i % (count / 8) == count / 16 {
            let under = if rule.starts_with(['!', '*']) { format!("x{}", &rule[1..]) } else { rule.clone() };
            names.push(format!("www.example.{under}"));
        }
        rules.push_str(&rule);
        rules.push('\n');
    }
    names.extend(["example.com".to_string(), "no-such-suffix.example.zzzz".to_string()]);
    (rules, names)
}

fn draw_rule(draw: &mut Draw, tops: &mut Vec<String>) -> String {
    let kind = if tops.is_empty() { 0 } else { draw.below(8) };
    if kind == 0 {
        let top = draw.label();
        tops.push(top.clone());
        return top;
    }
    let top = tops[draw.below(tops.len() as u32) as usize].clone();
    let mut rule = String::new();
    if kind == 7 {
        rule = if draw.below(4) == 0 { format!("!{}.", draw.label()) } else { "*.".to_string() };
    } else if kind == 6 {
        rule = format!("{}.", draw.label());
    }
    if kind != 7 || draw.below(2) == 0 {
        rule.push_str(&format!("{}.", draw.label()));
    }
    rule + &top
}

fn time_suffixes() {
    let (rules, names) = draw_list(10_000);
    // (that crate reads no rule outside of a section)
    let rules = format!("// ===BEGIN ICANN DOMAINS===\n{rules}// ===END ICANN DOMAINS===\n");
    report("read 10000 rules", least_time(|| {
        black_box(List::from_bytes(rules.as_bytes())).expect("a list");
    }));
    let list = List::from_bytes(rules.as_bytes()).expect("a list");
    report("look up in 10000 rules", least_time(|| {
        for name in &names {
            black_box(list.suffix(black_box(name.as_bytes())));
        }
    }) / names.len() as f64);
}

/// A saved list of so many rows, as bench/store loads it, with an expiry that is far off.
fn saved(rows: usize) -> String {
    let row = |i: usize| {
        let (host, own) = (i / PATHS.len(), i % PATHS.len());
        let path = PATHS[own];
        format!(
            "(raw_cookie: \"name{own}=value; Path={path}; Max-Age=2592000\", path: (\"{path}\", true), \
             domain: HostOnly(\"h{host}.example.com\"), expires: AtUtc(\"2099-01-01T00:00:00Z\")),\n"
        )
    };
    format!("[\n{}]\n", (0..rows).map(row).collect::<String>())
}

fn loaded(list: &str) -> CookieStore {
    cookie_store::serde::ron::load(list.as_bytes()).expect("a store")
}

fn time_store(rows: usize) {
    let host = format!("h{}.example.com", rows / PATHS.len() / 2);
    let url = Url::parse(&format!("https://{host}/a/x")).expect("a URL");
    let mut store = loaded(&saved(rows));
    assert_eq!(store.get_request_values(&url).count(), 4);
    report(&format!("the cookies of a request, of {rows}"), least_time(|| {
        black_box(store.get_request_values(black_box(&url)).count());
    }));
    let row = store.get(&host, "/", "name0").expect("a row");
    report(&format!("1,000 matches of one row, of {rows}"), least_time(|| {
        assert_eq!((0..1_000).filter(|_| row.matches(black_box(&url))).count(), 1_000);
    }));
    let (mut inserting, mut removing) = (f64::MAX, f64::MAX);
    for _ in 0..10_000 {
        let cookie = RawCookie::parse("new=value; Path=/; Max-Age=2592000").expect("a cookie");
        let from = Instant::now();
        let done = store.insert_raw(&cookie, &url);
        inserting = inserting.min(from.elapsed().as_nanos() as f64);
        assert!(matches!(done, Ok(StoreAction::Inserted)));
        let from = Instant::now();
        assert!(store.remove(&host, "/", "new").is_some());
        removing = removing.min(from.elapsed().as_nanos() as f64);
    }
    report(&format!("a new row beside {rows}"), inserting);
    report(&format!("its removal beside {rows}"), removing);
}

/// The least time of ten loads; letting the store go isn't in it, as it isn't in bench/store.
fn least_load(load: impl Fn() -> CookieStore) -> f64 {
    let one = || {
        let from = Instant::now();
        let store = load();
        let nanos = from.elapsed().as_nanos() as f64;
        assert!(store.iter_any().next().is_some());
        nanos
    };
    (0..10).map(|_| one()).fold(f64::MAX, f64::min)
}

#[allow(deprecated)]
fn save_lines(store: &CookieStore, lines: &mut Vec<u8>) {
    store.save_json(lines).expect("lines");
}

#[allow(deprecated)]
fn load_lines(lines: &[u8]) -> CookieStore {
    CookieStore::load_json(lines).expect("a store")
}

fn time_loading(rows: usize) {
    let list = saved(rows);
    report(&format!("load {rows} cookies from RON"), least_load(|| loaded(black_box(&list))));
    let mut json = Vec::new();
    cookie_store::serde::json::save(&loaded(&list), &mut json).expect("a list");
    report(&format!("load {rows} cookies from JSON"), least_load(|| {
        cookie_store::serde::json::load(black_box(&json[..])).expect("a store")
    }));
    let mut lines = Vec::new();
    save_lines(&loaded(&list), &mut lines);
    report(&format!("load {rows} cookies from JSON lines"), least_load(|| {
        load_lines(black_box(&lines[..]))
    }));
}
