//! A session from and into `http::HeaderMap`.

use fonnalich::{EndingWay, Error, Key, KeyRing, Session, Way};
use fonnalich_http::{now, HttpSession, SharedKeyRing};
use http::header::{HeaderMap, HeaderValue, COOKIE, SET_COOKIE};

const NOW: i64 = 1_700_000_000;

fn key() -> Key {
    Key::from(&std::array::from_fn::<u8, 64, _>(|i| i as u8))
}

fn lines(headers: &HeaderMap) -> Vec<&[u8]> {
    let mut lines: Vec<_> = headers.get_all(SET_COOKIE).iter().map(HeaderValue::as_bytes).collect();
    lines.sort();
    lines
}

// HTTP/2 may send each pair as a field of its own (RFC 9113, section 8.2.3).
#[test]
fn joins_all_fields() {
    let mut headers = HeaderMap::new();
    headers.insert("x-cookie", HeaderValue::from_static("e=5"));
    for field in [&b"a=1"[..], b"b=2; c=3", b"d=\xc3\xa9"] {
        headers.append(COOKIE, HeaderValue::from_bytes(field).unwrap());
    }
    let session = Session::from_headers(&headers, &key(), NOW);
    let read = ["a", "b", "c", "d", "e"].map(|name| session.get(Way::Plain, name).unwrap());
    assert_eq!(read.each_ref().map(Option::as_deref), [Some("1"), Some("2"), Some("3"), Some("é"), None]);
    assert_eq!(format!("{session:?}"), "Session { header: \"a=1; b=2; c=3; d=é\", now: 1700000000, .. }");
}

// A browser stores each of these for a neighbour's `Domain`, since none begins with the prefix as it stands.
#[test]
fn reads_no_forged_prefix() {
    let forged: [&[u8]; 6] = [
        b"%5F_Host-a=1",
        b"__%48ost-a=1",
        b"\xc2\xa0__Host-a=1",
        b"%20__Host-a=1",
        b"x=0; %5f%5fHost-a=1",
        b"%5F_Secure-a=1",
    ];
    for field in forged {
        let mut headers = HeaderMap::new();
        headers.insert(COOKIE, HeaderValue::from_bytes(field).unwrap());
        let session = Session::from_headers(&headers, &key(), NOW);
        for way in [Way::Host, Way::Secure] {
            assert_eq!(session.get(way, "a"), Ok(None), "{field:?}");
        }
        assert_eq!(session.get(Way::Plain, "__Host-a"), Ok(None), "{field:?}");
    }
    let mut headers = HeaderMap::new();
    headers.insert(COOKIE, HeaderValue::from_static("a%20b=1;  __Host-a=2; __Host-b%3B=3; %zz=4"));
    let session = Session::from_headers(&headers, &key(), NOW);
    let read = [(Way::Plain, "a b"), (Way::Host, "a"), (Way::Host, "b;"), (Way::Plain, "%zz")]
        .map(|(way, name)| session.get(way, name).unwrap());
    assert_eq!(read.each_ref().map(Option::as_deref), [Some("1"), Some("2"), Some("3"), Some("4")]);
}

#[test]
fn reads_no_field() {
    let session = Session::from_headers(&HeaderMap::new(), &key(), NOW);
    assert_eq!(session.get(Way::Plain, "a"), Ok(None));
}

// The code is by Python's `hmac`, and the line stands as RFC 6265, section 3, has it: no two share a field.
#[test]
fn writes_a_field_for_each_line() {
    let mut headers = HeaderMap::new();
    headers.insert(COOKIE, HeaderValue::from_static("theme=dark"));
    let mut session = Session::from_headers(&headers, &key(), NOW);
    session.set(Way::Signed, ("user", "ann")).unwrap();
    session.set(Way::Host, ("b;", "é\r\n")).unwrap();
    session.remove(Way::Plain, "theme").unwrap();
    let mut response = HeaderMap::new();
    response.insert(SET_COOKIE, HeaderValue::from_static("own=1"));
    session.close_into(&mut response).unwrap();
    let wanted: [&[u8]; 4] = [
        b"__Host-b%3B=%C3%A9%0D%0A; Secure; Path=/",
        b"own=1",
        b"theme=; Secure; Path=/; Max-Age=0; Expires=Mon, 14 Nov 2022 22:13:20 GMT",
        b"user=DR8SuBlsUrDbRKVCnIMjAjDAS1re9vpW+c9wxfBEMkI%3Dann; Secure; Path=/",
    ];
    assert_eq!(lines(&response), wanted);
}

/// The headers of a request with this `Cookie` field.
fn sent(field: &'static str) -> HeaderMap {
    HeaderMap::from_iter([(COOKIE, HeaderValue::from_static(field))])
}

// The codes are by Python's `hmac`: of a value, and of one that ends 1,800 seconds from then.
const SIGNED: &str = "user=DR8SuBlsUrDbRKVCnIMjAjDAS1re9vpW+c9wxfBEMkI%3Dann";
const ENDING: &str = "user=~PxenwkQ8OcdyLnIBdWTpxdMSu0sCFe4ZDbDAmInG4FU%3D2023-11-14T22%3A43%3A20Zann";

#[test]
fn reads_by_the_keys_that_count() {
    let new = Key::from(&[7; 64]);
    let ring = KeyRing::with_earlier(&new, [(&key(), Some(NOW + 60))]).unwrap();
    let place = |keys: &KeyRing, now| {
        let read = Session::from_headers(&sent(SIGNED), keys, now).get_with_place(Way::Signed, "user").unwrap();
        let ending = Session::from_headers(&sent(ENDING), keys, now);
        assert_eq!(ending.get_until_with_place(EndingWay::Signed, "user").unwrap(), read);
        read.map(|(user, place)| (user == "ann").then_some(place))
    };
    assert_eq!(place(&KeyRing::new(&key()), NOW), Some(Some(0)));
    assert_eq!((place(&ring, NOW + 59), place(&ring, NOW + 60)), (Some(Some(1)), None));
    assert_eq!(place(&KeyRing::new(&new), NOW), None);
    let late = Session::from_headers(&sent(ENDING), &key(), NOW + 1800);
    assert_eq!(late.get_until(EndingWay::Signed, "user"), Ok(None));
}

#[test]
fn shares_a_ring() {
    let (shared, old) = (SharedKeyRing::new(key()), Key::from(&[7; 64]));
    let copy = shared.clone();
    copy.replace(&old);
    copy.rotate(&key(), NOW, Some(NOW + 60)).unwrap();
    assert_eq!(shared.ring(), KeyRing::with_earlier(&key(), [(&old, Some(NOW + 60))]).unwrap());
    assert_eq!(
        (KeyRing::from(&shared), SharedKeyRing::from(&shared).ring()),
        (copy.ring(), KeyRing::from(copy.clone()))
    );
    let session = Session::from_headers(&sent(SIGNED), &shared, NOW);
    // (an open session keeps its keys)
    shared.replace(&old);
    assert_eq!(session.get(Way::Signed, "user").unwrap().as_deref(), Some("ann"));
    assert_eq!(Session::from_headers(&sent(SIGNED), copy, NOW).get(Way::Signed, "user"), Ok(None));
}

#[test]
fn keeps_a_ring_that_has_no_room() {
    let shared = SharedKeyRing::from(KeyRing::with_earlier(&key(), vec![(&key(), None); 16]).unwrap());
    let before = shared.ring();
    assert_eq!(shared.rotate(&Key::from(&[7; 64]), NOW, None), Err(Error::ManyKeys));
    assert_eq!(shared.ring(), before);
    assert_eq!(format!("{:?}", SharedKeyRing::from(&Key::from(&[77; 64]))), "SharedKeyRing(KeyRing { ends: [], .. })");
}

#[test]
fn adds_nothing_where_it_is_refused() {
    let mut session = Session::from_headers(&HeaderMap::new(), &key(), i64::MAX);
    let _ = session.set(Way::Plain, ("a", "1"));
    let mut response = HeaderMap::new();
    assert_eq!(session.close_into(&mut response), Err(Error::Moment));
    assert!(response.is_empty());
}

// The beginnings of 2024 and 2200.
#[test]
fn knows_the_moment() {
    assert!((1_704_067_200..7_258_118_400).contains(&now()));
}
