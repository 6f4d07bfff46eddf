//! Cookies of an HTTP client and of a site (RFC 6265), by the library fonnalich, whose sources are proved.
//!
//! A client keeps what it is sent:
//!
//! ```
//! use fonnalich::Client;
//!
//! let mut client = Client::new("com\norg\n")?;
//! client.receive("https://shop.com/", &["user=ann; Path=/; Secure"], 1_700_000_000)?;
//! assert_eq!(client.header("https://shop.com/cart", 1_700_000_001)?, b"user=ann");
//! # Ok::<(), fonnalich::Error>(())
//! ```
//!
//! A site signs a cookie, and reads it at a later request:
//!
//! ```
//! use fonnalich::{Cookie, Key, Session, Way};
//!
//! let key = Key::from(&[7; 64]);
//! let mut session = Session::open("theme=dark", &key, 1_700_000_000);
//! session.set(Way::Signed, Cookie::build(("user", "7")).max_age(3600).http_only(true))?;
//! let lines = session.close()?;
//! let session = Session::open(lines[0].split(';').next().unwrap(), &key, 1_700_000_001);
//! assert_eq!(session.get(Way::Signed, "user")?.as_deref(), Some("7"));
//! # Ok::<(), fonnalich::Error>(())
//! ```
//!
//! # Panics
//!
//! On a processor of x86-64 without SSE 4.2 the first call panics, and says so.

mod cookie;
mod cookies_txt;
mod handle;
mod held;
mod list;
mod ring;
mod rules;
mod site;

pub use cookie::{Cookie, CookieBuilder, Encoded, SameSite, SplitCookies};
pub use cookies_txt::{Imported, Reader, RefusedLine, RowCause};
pub use held::HeldCookie;
pub use list::{List, ListError, Suffixes};
pub use ring::KeyRing;
pub use rules::{Rule, Rules};
pub use site::{is_plain_url, shard, shard_of_url, suffix, EndingWay, Key, Session, Way};

use handle::{Held, One, Started, Word};
use list::Given;
use std::fmt;

mod library {
    #[repr(C, align(16))]
    pub struct Handle(pub [u64; 128]);

    /// A cookie's attributes. A number or a text counts where its flag is set.
    #[repr(C)]
    #[derive(Default)]
    pub struct Attributes {
        pub max_age: i64,
        pub expires: i64,
        pub has_max_age: bool,
        pub has_expires: bool,
        pub has_path: bool,
        pub has_domain: bool,
        pub http_only: bool,
        pub secure: bool,
        pub partitioned: bool,
        pub same_site: u8,
    }

    unsafe extern "C" {
        pub fn fonnalich_size() -> usize;
        pub fn fonnalich_version(out: *mut u8, out_length: usize) -> isize;
        pub fn fonnalich_place(at: *mut Handle);
        pub fn fonnalich_end(at: *mut Handle);
        #[allow(clippy::too_many_arguments)]
        pub fn fonnalich_act(
            at: *mut Handle,
            word: u32,
            number: i64,
            subject: *const u8,
            subject_length: usize,
            text: *const u8,
            text_length: usize,
            out: *mut u8,
            out_length: usize,
        ) -> isize;
        #[allow(clippy::too_many_arguments)]
        pub fn fonnalich_one(
            at: *mut Handle,
            word: u32,
            second: i64,
            domain: *const u8,
            domain_length: usize,
            path: *const u8,
            path_length: usize,
            name: *const u8,
            name_length: usize,
            out: *mut u8,
            out_length: usize,
        ) -> isize;
        #[allow(clippy::too_many_arguments)]
        pub fn fonnalich_receive_for(
            at: *mut Handle,
            started: u32,
            second: i64,
            url: *const u8,
            url_length: usize,
            page: *const u8,
            page_length: usize,
            lines: *const u8,
            lines_length: usize,
            out: *mut u8,
            out_length: usize,
        ) -> isize;
        pub fn fonnalich_share(at: *mut Handle, other: *mut Handle) -> isize;
        #[allow(clippy::too_many_arguments)]
        pub fn fonnalich_exchange_on_ring(
            keys: *const u8,
            keys_length: usize,
            ends: *const i64,
            ends_length: usize,
            header: *const u8,
            header_length: usize,
            second: i64,
            commands: *const u8,
            commands_length: usize,
            nonces: *const u8,
            nonces_length: usize,
            out: *mut u8,
            out_length: usize,
        ) -> isize;
        pub fn fonnalich_suffix(
            list: *const u8,
            list_length: usize,
            host: *const u8,
            host_length: usize,
            out: *mut u8,
            out_length: usize,
        ) -> isize;
        pub fn fonnalich_shard(
            list: *const u8,
            list_length: usize,
            host: *const u8,
            host_length: usize,
            out: *mut u8,
            out_length: usize,
        ) -> isize;
        pub fn fonnalich_shard_of_url(
            list: *const u8,
            list_length: usize,
            url: *const u8,
            url_length: usize,
            out: *mut u8,
            out_length: usize,
        ) -> isize;
        pub fn fonnalich_is_plain_url(url: *const u8, url_length: usize) -> isize;
        pub fn fonnalich_parse(
            decode: bool,
            text: *const u8,
            length: usize,
            attributes: *mut Attributes,
            out: *mut u8,
            out_length: usize,
        ) -> isize;
        #[allow(clippy::too_many_arguments)]
        pub fn fonnalich_print(
            encode: bool,
            attributes: *const Attributes,
            name: *const u8,
            name_length: usize,
            value: *const u8,
            value_length: usize,
            path: *const u8,
            path_length: usize,
            domain: *const u8,
            domain_length: usize,
            out: *mut u8,
            out_length: usize,
        ) -> isize;
    }
}

/// The version of the library, which is this crate's.
pub fn version() -> String {
    // The call writes within `out`, and is never refused.
    let answer = site::answered(|out| unsafe { library::fonnalich_version(out.as_mut_ptr(), out.len()) });
    String::from_utf8_lossy(&answer.unwrap_or_default()).into_owned()
}

/// Why a call is refused. The client is as it was, but for `Stopped`. Of several causes the one is told whose number
/// in the header file is nearest to 0; want of memory may be told in the place of any.
#[derive(Clone, Copy, Debug, PartialEq, Eq)]
#[non_exhaustive]
pub enum Error {
    /// Memory was refused.
    OutOfMemory,
    /// The text is no public suffix list.
    List,
    /// The list has no rule, or its text is the name of a file.
    NoRule,
    /// The second is before the year -9999 or after 9999.
    Moment,
    /// The text is no URL.
    Url,
    /// The text is no saved client.
    Saved,
    /// A cookie that is to be saved ends in a year below 0.
    Year,
    /// A line has a line feed.
    LineFeed,
    /// A key has under 64 bytes.
    Key,
    /// There are over 16 earlier keys.
    ManyKeys,
    /// The end of an earlier key is before the year -9999 or after 9999.
    KeyEnd,
    /// A cookie that is to be set has no name.
    Command,
    /// The name that is to be read or removed, or that of a text, is empty.
    EmptyName,
    /// A cookie that is to be set in a session has a domain, or another path than `/`.
    Place,
    /// The expiry of a cookie is of a year below 100.
    Expiry,
    /// The value or the name of a cookie is too long to be sealed.
    TooLong,
    /// The host has no byte or an empty label, or the URL has none.
    Host,
    /// The name or the value, percent-decoded, isn't UTF-8.
    Utf8Error,
    /// The text before the first `;` has no `=`.
    MissingPair,
    /// The header has a control character, as a line break.
    Line,
    /// The system gave no random bytes for a nonce.
    Random,
    /// Memory was refused at this line, counted from 1: those before it were taken. At 0 none was.
    Stopped(usize),
    /// A number that no call of this crate answers.
    Other(isize),
}

impl Error {
    fn of(number: isize) -> Error {
        match number {
            -1 => Error::OutOfMemory,
            -4 => Error::List,
            -5 => Error::Moment,
            -6 => Error::Url,
            -7 => Error::Saved,
            -8 => Error::Year,
            -10 => Error::Key,
            -11 => Error::Command,
            -12 => Error::EmptyName,
            -13 => Error::Expiry,
            -14 => Error::TooLong,
            -16 => Error::Host,
            -17 => Error::Utf8Error,
            -18 => Error::MissingPair,
            -21 => Error::Line,
            -24 => Error::NoRule,
            -26 => Error::ManyKeys,
            -28 => Error::KeyEnd,
            ..=-100 => Error::Stopped((-100 - number) as usize),
            _ => Error::Other(number),
        }
    }
}

impl fmt::Display for Error {
    fn fmt(&self, to: &mut fmt::Formatter<'_>) -> fmt::Result {
        match self {
            Error::OutOfMemory => to.write_str("memory was refused"),
            Error::List => to.write_str("the text is no public suffix list: List::from_file reads a path"),
            Error::NoRule => to.write_str("the text of the list has no rule: List::from_file reads a path"),
            Error::Moment => to.write_str("the moment is out of the years -9999 to 9999"),
            Error::Url => to.write_str("the text is no URL"),
            Error::Saved => to.write_str("the text is no saved client"),
            Error::Year => to.write_str("a cookie that is to be saved ends in a year below 0"),
            Error::LineFeed => to.write_str("a line has a line feed"),
            Error::Key => to.write_str("the key has under 64 bytes: Key::generate makes one, and a site keeps 64"),
            Error::ManyKeys => to.write_str("there are over 16 earlier keys"),
            Error::KeyEnd => to.write_str("the end of a key is out of the years -9999 to 9999"),
            Error::Command => to.write_str("the cookie has no name"),
            Error::EmptyName => to.write_str("the name is empty"),
            Error::Place => to.write_str("a session's cookie is its host's, for all paths: leave out domain and path"),
            Error::Expiry => to.write_str("the expiry is of a year below 100"),
            Error::TooLong => to.write_str("the cookie is too long to be sealed"),
            Error::Host => to.write_str("the host has no byte or an empty label, or the URL has none"),
            Error::Utf8Error => to.write_str("the name or the value, percent-decoded, isn't UTF-8"),
            Error::MissingPair => to.write_str("the text has no = before its first ;"),
            Error::Line => to.write_str("the header has a control character"),
            Error::Random => to.write_str("the system gave no random bytes"),
            Error::Stopped(0) => to.write_str("memory was refused before the first line"),
            Error::Stopped(line) => write!(to, "memory was refused at line {line}"),
            Error::Other(number) => write!(to, "the library answered {number}"),
        }
    }
}

impl std::error::Error for Error {}

/// What became of a line.
#[derive(Clone, Copy, Debug, PartialEq, Eq)]
#[non_exhaustive]
pub enum LineEnd {
    /// It is a new cookie.
    Inserted,
    /// It is expired, and so is now the cookie that stood in its place.
    ExpiredExisting,
    /// It took the place of a cookie.
    UpdatedExisting,
    /// It isn't UTF-8.
    NotText,
    /// It is against the prefix `__Host-`.
    HostPrefix,
    /// It is HttpOnly, and the scheme isn't HTTP's.
    NonHttpScheme,
    /// It has no domain, and the URL no host.
    NonRelativeScheme,
    /// The URL's host doesn't domain-match.
    DomainMismatch,
    /// It is expired, and none stood in its place.
    Expired,
    /// It is no cookie.
    Parse,
    /// Its domain is a public suffix.
    PublicSuffix,
    /// A rule refused it, and nothing changed.
    Ruled(Rule),
}

impl LineEnd {
    fn of(number: u8) -> LineEnd {
        match number {
            0 => LineEnd::Inserted,
            1 => LineEnd::ExpiredExisting,
            2 => LineEnd::UpdatedExisting,
            3 => LineEnd::NotText,
            4 => LineEnd::HostPrefix,
            10 => LineEnd::NonHttpScheme,
            11 => LineEnd::NonRelativeScheme,
            12 => LineEnd::DomainMismatch,
            13 => LineEnd::Expired,
            15 => LineEnd::PublicSuffix,
            _ => Rule::of(number).map_or(LineEnd::Parse, LineEnd::Ruled),
        }
    }
}

/// What starts a request (the draft that follows RFC 6265, section 5.2).
///
/// A redirect is of the request that it answers: what starts that starts each hop.
#[derive(Clone, Copy, Debug, PartialEq, Eq)]
pub enum Initiator<'u> {
    /// The user, as by a typed URL or a bookmark.
    User,
    /// A page: as an image of it, a script, or a form that is sent by POST. The URL is that of the document at the top
    /// of the frames, where the one that starts the request and each above it are of one site with it; else `data:,`,
    /// as for a frame of ads.com in a page of shop.com.
    Page(&'u str),
    /// Such a page, by a navigation of the top level with a safe method, as a link by GET. At
    /// [`Client::receive_for`] by any method: a form that navigates the top level by POST is `Page` at
    /// [`Client::header_for`], and `Navigation` there.
    Navigation(&'u str),
}

/// A client that keeps what it is sent, and gives each request what it holds for it. It may move to another thread.
///
/// Moments are whole seconds since 1970.
pub struct Client {
    held: Held,
}

// (nothing of the library belongs to a thread, and `&mut` lets one call at a time use a handle)
const _: () = {
    const fn moves<T: Send>() {}
    moves::<Client>();
    moves::<Session>();
    const fn is_shared<T: Send + Sync>() {}
    is_shared::<List>();
};

impl Client {
    /// A client without a cookie, by a public suffix list, which it shares, or by its text. Its lines come behind the
    /// rules of browsers.
    pub fn new(list: impl Suffixes) -> Result<Client, Error> {
        let mut held = Held::begun();
        match list.given() {
            Given::List(list) => {
                list.share(&mut held)?;
                held.act(Word::Client, 0, b"", b"")?;
            }
            Given::Text(text) => {
                held.act(Word::List, 0, b"", text)?;
                list::refuse_file(text)?;
            }
        }
        Ok(Client { held })
    }

    /// A client without a cookie, whose lines come behind these rules: [`Rules::none`] asks for none.
    pub fn with_rules(list: impl Suffixes, rules: Rules) -> Result<Client, Error> {
        let mut client = Client::new(list)?;
        client.set_rules(rules);
        Ok(client)
    }

    /// Puts the lines that come later behind these rules. No cookie that is there is judged by them, but in headers.
    pub fn set_rules(&mut self, rules: Rules) {
        // Each sum of flags is one of rules, and the call takes no memory.
        self.act(Word::Rules, rules.flags(), b"", b"").expect("flags of rules");
    }

    /// A client of a saved text's cookies that aren't expired at this moment. Its lines come behind the rules of
    /// browsers.
    pub fn load(list: impl Suffixes, saved: &[u8], now: i64) -> Result<Client, Error> {
        let mut held = Held::begun();
        match list.given() {
            Given::List(list) => {
                list.share(&mut held)?;
                held.act(Word::LoadBy, now, saved, b"")?;
            }
            Given::Text(text) => {
                held.act(Word::Load, now, saved, text)?;
                list::refuse_file(text)?;
            }
        }
        Ok(Client { held })
    }

    /// Takes the Set-Cookie lines of an answer from this URL, and says what became of each.
    pub fn receive<L: AsRef<[u8]>>(&mut self, url: &str, lines: &[L], now: i64) -> Result<Vec<LineEnd>, Error> {
        let text = joined(lines)?;
        let ends = self.act(Word::Receive, now, url.as_bytes(), &text)?;
        Ok(ends_of(lines.len(), &text, ends))
    }

    /// The same of an answer to a request that is started so. Where a page of another site starts it, and but for a
    /// navigation, it sets no cookie whose `SameSite` is `Strict` or `Lax`; by the rule `lax_by_default` so none
    /// without the attribute, and by `none_needs_secure`, whatever starts it, none of `None` that isn't Secure.
    ///
    /// ```
    /// use fonnalich::{Client, Initiator, LineEnd, Rule};
    ///
    /// let mut client = Client::new("com\norg\n")?;
    /// let by_image = Initiator::Page("https://evil.org/");
    /// let lines = ["user=mallory; SameSite=Lax", "seen=1; SameSite=None; Secure"];
    /// let ends = client.receive_for("https://shop.com/", by_image, &lines, 1_700_000_000)?;
    /// assert_eq!(ends, [LineEnd::Ruled(Rule::CrossSite), LineEnd::Inserted]);
    /// # Ok::<(), fonnalich::Error>(())
    /// ```
    pub fn receive_for<L: AsRef<[u8]>>(
        &mut self,
        url: &str,
        initiator: Initiator<'_>,
        lines: &[L],
        now: i64,
    ) -> Result<Vec<LineEnd>, Error> {
        let text = joined(lines)?;
        let (started, page) = match initiator {
            Initiator::User => (Started::User, ""),
            Initiator::Page(page) => (Started::Page, page),
            Initiator::Navigation(page) => (Started::Navigation, page),
        };
        let ends = self.held.receive_for(started, now, [url.as_bytes(), page.as_bytes(), &text])?;
        Ok(ends_of(lines.len(), &text, ends))
    }

    /// The Cookie header of a request to this URL; empty where it gets none. It is one line: behind the rule `control`
    /// a cookie that would put a control character there is left out. Without that rule it is `Line`, which a
    /// neighbour's line can bring about.
    pub fn header(&mut self, url: &str, now: i64) -> Result<Vec<u8>, Error> {
        self.act(Word::Header, now, url.as_bytes(), b"").map(<[u8]>::to_vec)
    }

    /// The same of a request that is started so. Where a page of another site starts it, it leaves out the cookies
    /// whose `SameSite` is `Strict`, and but for a navigation those whose is `Lax`; by the rule `lax_by_default` so
    /// those without the attribute. A site is a scheme and a registrable domain by the client's list.
    ///
    /// ```
    /// use fonnalich::{Client, Initiator};
    ///
    /// let mut client = Client::new("com\norg\n")?;
    /// client.receive("https://shop.com/", &["user=ann; SameSite=Strict", "theme=dark; SameSite=Lax"], 1_700_000_000)?;
    /// let by_link = Initiator::Navigation("https://evil.org/");
    /// assert_eq!(client.header_for("https://shop.com/", by_link, 1_700_000_000)?, b"theme=dark");
    /// let by_image = Initiator::Page("https://evil.org/");
    /// assert_eq!(client.header_for("https://shop.com/", by_image, 1_700_000_000)?, b"");
    /// # Ok::<(), fonnalich::Error>(())
    /// ```
    pub fn header_for(&mut self, url: &str, initiator: Initiator<'_>, now: i64) -> Result<Vec<u8>, Error> {
        let (word, page) = match initiator {
            Initiator::User => (Word::Header, ""),
            Initiator::Page(page) => (Word::HeaderByPage, page),
            Initiator::Navigation(page) => (Word::HeaderByNavigation, page),
        };
        self.act(word, now, url.as_bytes(), page.as_bytes()).map(<[u8]>::to_vec)
    }

    /// The saved text of the cookies that have an expiry and aren't expired.
    pub fn save(&mut self, now: i64) -> Result<Vec<u8>, Error> {
        self.act(Word::Save, now, b"", b"").map(<[u8]>::to_vec)
    }

    /// Puts the cookies of a `cookies.txt`, which curl, wget and Python share, into the client, and says what became of
    /// its lines.
    ///
    /// Each line is read by itself. Of two of one domain, path and name the later takes the place of the earlier, as of
    /// those that the client holds. Neither the suffix list nor the rules judge a line, so trust the file: they don't
    /// keep a cookie of `Domain=com` out.
    ///
    /// ```
    /// use fonnalich::{Client, Reader};
    ///
    /// let text = b"#HttpOnly_.shop.com\tTRUE\t/\tTRUE\t2000000000\tuser\tann\nno row\n";
    /// let mut client = Client::new("com\n")?;
    /// let done = client.import_cookies_txt(text, 1_700_000_000)?;
    /// assert_eq!((done.taken, done.refused[0].line), (1, 2));
    /// assert_eq!(client.header("https://www.shop.com/", 1_700_000_000)?, b"user=ann");
    /// let written = client.export_cookies_txt(Reader::Curl, true, 1_700_000_000)?;
    /// assert!(written.ends_with(&text[..text.len() - 7]));
    /// # Ok::<(), fonnalich::Error>(())
    /// ```
    pub fn import_cookies_txt(&mut self, text: &[u8], now: i64) -> Result<Imported, Error> {
        self.act(Word::Import, now, b"", text).map(cookies_txt::imported)
    }

    /// The cookies that it holds and that aren't expired, as a `cookies.txt` for this reader: with those that end with
    /// the session, or without. Those that no line can hold are left out, as one with a tab in its value.
    pub fn export_cookies_txt(&mut self, reader: Reader, sessions: bool, now: i64) -> Result<Vec<u8>, Error> {
        self.act(reader.word(sessions), now, b"", b"").map(<[u8]>::to_vec)
    }

    /// Ends the session cookies, as saving and loading does.
    pub fn restart(&mut self, now: i64) -> Result<(), Error> {
        self.act(Word::Restart, now, b"", b"").map(|_| ())
    }

    /// How many cookies it holds that aren't expired.
    pub fn len(&mut self, now: i64) -> Result<usize, Error> {
        let count = self.act(Word::Count, now, b"", b"")?;
        Ok(count.iter().rev().fold(0, |sum, byte| sum << 8 | usize::from(*byte)))
    }

    /// Whether it holds none that isn't expired.
    pub fn is_empty(&mut self, now: i64) -> Result<bool, Error> {
        Ok(self.len(now)? == 0)
    }

    /// The cookies that it holds and that aren't expired.
    ///
    /// ```
    /// let mut client = fonnalich::Client::new("com\n")?;
    /// client.receive("https://shop.com/", &["user=ann; Secure", "cart=3"], 1_700_000_000)?;
    /// for cookie in client.iter(1_700_000_000)? {
    ///     assert_eq!((cookie.domain(), cookie.path()), ("shop.com", "/"));
    /// }
    /// client.remove("shop.com", "/", "user")?;
    /// let names: Vec<_> = client.iter(1_700_000_000)?.map(|cookie| cookie.name().to_owned()).collect();
    /// assert_eq!(names, ["cart"]);
    /// # Ok::<(), fonnalich::Error>(())
    /// ```
    pub fn iter(&mut self, now: i64) -> Result<impl ExactSizeIterator<Item = HeldCookie>, Error> {
        let answer = self.act(Word::Cookies, now, b"", b"")?;
        Ok(held::cookies(answer).into_iter())
    }

    /// The cookie of this domain, path and name, where it holds one that isn't expired.
    pub fn get(&mut self, domain: &str, path: &str, name: &str, now: i64) -> Result<Option<HeldCookie>, Error> {
        self.one(One::Get, now, [domain, path, name])
    }

    /// Takes the cookie of this domain, path and name out; none where it holds none. An expired one that it still keeps
    /// counts too.
    pub fn remove(&mut self, domain: &str, path: &str, name: &str) -> Result<Option<HeldCookie>, Error> {
        self.one(One::Remove, 0, [domain, path, name])
    }

    /// Takes all cookies out.
    pub fn clear(&mut self) {
        // The call has a client, asks nothing else, and takes no memory.
        self.act(Word::Clear, 0, b"", b"").expect("a client");
    }

    fn one(&mut self, word: One, second: i64, key: [&str; 3]) -> Result<Option<HeldCookie>, Error> {
        Ok(held::cookies(self.held.one(word, second, key)?).pop())
    }

    fn act(&mut self, word: Word, number: i64, subject: &[u8], text: &[u8]) -> Result<&[u8], Error> {
        self.held.act(word, number, subject, text)
    }
}

// The lines as the library takes them.
fn joined<L: AsRef<[u8]>>(lines: &[L]) -> Result<Vec<u8>, Error> {
    if lines.iter().any(|line| line.as_ref().contains(&b'\n')) {
        return Err(Error::LineFeed);
    }
    Ok(lines.iter().map(AsRef::as_ref).collect::<Vec<_>>().join(&b'\n'))
}

// What became of so many lines. One empty line makes an empty text, which has no line; it is no cookie.
fn ends_of(count: usize, text: &[u8], ends: &[u8]) -> Vec<LineEnd> {
    if count == 1 && text.is_empty() {
        return vec![LineEnd::Parse];
    }
    ends.iter().map(|end| LineEnd::of(*end)).collect()
}

#[cfg(test)]
mod tests {
    use super::*;

    const LIST: &str = "com\norg\n";
    const URL: &str = "https://example.com/";
    const NOW: i64 = 1_700_000_000;

    #[test]
    fn tells_the_version() {
        assert_eq!(super::version(), env!("CARGO_PKG_VERSION"));
    }

    // The lines and the header of RFC 6265, section 3.1.
    #[test]
    fn gives_what_it_received() {
        let mut client = Client::new(LIST).unwrap();
        let lines = ["SID=31d4d96e407aad42; Path=/; Secure; HttpOnly", "lang=en-US; Path=/; Domain=example.com"];
        assert_eq!(client.receive(URL, &lines, NOW), Ok(vec![LineEnd::Inserted; 2]));
        assert_eq!(client.header(URL, NOW).unwrap(), b"SID=31d4d96e407aad42; lang=en-US");
    }

    #[test]
    fn has_room_for_a_long_header() {
        let mut client = Client::new(LIST).unwrap();
        for i in 0..100 {
            client.receive(URL, &[format!("n{i}={}", "x".repeat(100))], NOW).unwrap();
        }
        assert_eq!(client.header(URL, NOW).unwrap().len(), 10 * 103 + 90 * 104 + 99 * 2);
        assert_eq!(client.header(URL, NOW).unwrap().len(), 10 * 103 + 90 * 104 + 99 * 2);
    }

    #[test]
    fn is_saved_and_loaded() {
        let mut client = Client::new(LIST).unwrap();
        client.receive(URL, &["a=1; Max-Age=60", "b=2"], NOW).unwrap();
        let saved = client.save(NOW).unwrap();
        let mut loaded = Client::load(LIST, &saved, NOW).unwrap();
        assert_eq!(loaded.header(URL, NOW).unwrap(), b"a=1");
        client.restart(NOW).unwrap();
        assert_eq!(client.header(URL, NOW).unwrap(), b"a=1");
        assert_eq!(Client::load(LIST, b"[(", NOW).err(), Some(Error::Saved));
    }

    #[test]
    fn tells_what_it_holds() {
        let mut client = Client::new(LIST).unwrap();
        assert!(client.is_empty(NOW).unwrap());
        let lines = ["a=b=c; Path=/x; Secure; HttpOnly; SameSite=Lax", "lang=en-US; Domain=example.com; Max-Age=60"];
        client.receive(URL, &lines, NOW).unwrap();
        assert_eq!((client.len(NOW), client.len(NOW + 60)), (Ok(2), Ok(1)));
        let held: Vec<_> = client.iter(NOW).unwrap().collect();
        let keys: Vec<_> = held.iter().map(|it| (it.domain(), it.path(), it.name(), it.value())).collect();
        assert_eq!(keys, [("example.com", "/x", "a", "b=c"), ("example.com", "/", "lang", "en-US")]);
        let first = &held[0];
        assert!(first.is_host_only() && first.is_secure() && first.is_http_only() && !first.is_partitioned());
        assert_eq!((first.expires(), first.same_site()), (None, Some(SameSite::Lax)));
        assert_eq!((held[1].expires(), held[1].is_host_only()), (Some(NOW + 60), false));
        assert_eq!(client.get("example.com", "/", "lang", NOW).unwrap().as_ref(), Some(&held[1]));
        assert_eq!(client.get("example.com", "/", "lang", NOW + 60), Ok(None));
        assert_eq!(client.get("example.org", "/", "lang", NOW), Ok(None));
        assert_eq!(client.remove("example.com", "/", "a"), Ok(None));
        assert_eq!(client.remove("example.com", "/x", "a").unwrap().as_ref(), Some(&held[0]));
        assert_eq!(client.header("https://example.com/x", NOW).unwrap(), b"lang=en-US");
        client.clear();
        assert_eq!((client.len(NOW), client.header(URL, NOW)), (Ok(0), Ok(Vec::new())));
        assert_eq!(client.receive(URL, &["a=1; Domain=com"], NOW), Ok(vec![LineEnd::PublicSuffix]));
        assert_eq!(client.iter(i64::MAX).err(), Some(Error::Moment));
    }

    // Each of 1,000 cookies is told, and its answer has no room at first.
    #[test]
    fn tells_many_that_it_holds() {
        let mut client = Client::new(LIST).unwrap();
        let lines: Vec<_> = (0..1000).map(|i| format!("n{i}={}", "x".repeat(i))).collect();
        client.receive(URL, &lines, NOW).unwrap();
        let held = client.iter(NOW).unwrap();
        assert_eq!(held.len(), 1000);
        assert!(held.enumerate().all(|(i, it)| it.name() == format!("n{i}") && it.value().len() == i));
        let long = client.get("example.com", "/", "n999", NOW).unwrap();
        assert_eq!(long.map(|it| it.value().len()), Some(999));
    }

    // The sections 4.1.3 and 5.5 to 5.7 of the draft that follows RFC 6265.
    #[test]
    fn keeps_rules() {
        let http = "http://example.com/";
        let mut client = Client::new(LIST).unwrap();
        let long = format!("long={}", "x".repeat(4093));
        let lines = ["a=\x01", &long, "__secure-a=1", "__HOST-a=1; Secure; Path=/x", "sid=1; Secure; Path=/"];
        let rules = [Rule::Control, Rule::TooLong, Rule::SecurePrefix, Rule::HostPrefix].map(LineEnd::Ruled);
        let ends = client.receive(URL, &lines, NOW).unwrap();
        assert_eq!((&ends[..4], ends[4]), (&rules[..], LineEnd::Inserted));
        let ends = client.receive(http, &["b=2; Secure", "sid=3", "c=4"], NOW).unwrap();
        let wanted = [LineEnd::Ruled(Rule::SecureFromHttp), LineEnd::Ruled(Rule::SecureOverlay), LineEnd::Inserted];
        assert_eq!(ends, wanted);
        client.set_rules(Rules { secure_from_http: false, ..Rules::browser() });
        let ends = client.receive(http, &["b=2; Secure", "sid=3"], NOW).unwrap();
        assert_eq!(ends, [LineEnd::Inserted, LineEnd::Ruled(Rule::SecureOverlay)]);
        client.set_rules(Rules::none());
        assert_eq!(client.receive(http, &["sid=3"], NOW), Ok(vec![LineEnd::UpdatedExisting]));
        let mut client = Client::load(LIST, &client.save(NOW).unwrap(), NOW).unwrap();
        assert_eq!(client.receive(http, &["b=2; Secure"], NOW).unwrap(), wanted[..1]);
    }

    // A neighbour sets its cookie over http first, the name escaped; then the site sets its own.
    #[test]
    fn lets_secure_cookies_win() {
        let (evil, plain) = ("http://evil.example.com/", "http://www.example.com/");
        let site = "https://www.example.com/";
        let rules = Rules { secure_wins: true, ..Rules::browser() };
        for (rules, header, end) in [
            (rules, "b=2; sid=1", LineEnd::Ruled(Rule::LacksSecure)),
            (Rules::browser(), "s%69d=0; b=2; sid=1", LineEnd::Inserted),
        ] {
            let mut client = Client::with_rules(LIST, rules).unwrap();
            let planted = ["s%69d=0; Domain=example.com; Path=/", "b=2; Domain=example.com; Path=/"];
            assert_eq!(client.receive(evil, &planted, NOW), Ok(vec![LineEnd::Inserted; 2]));
            assert_eq!(client.receive(site, &["sid=1; Secure; Path=/"], NOW), Ok(vec![LineEnd::Inserted]));
            assert_eq!(client.header(site, NOW).unwrap(), header.as_bytes(), "{rules:?}");
            assert_eq!(client.header(plain, NOW).unwrap(), b"s%69d=0; b=2", "{rules:?}");
            assert_eq!(client.receive(evil, &["c=3; SameSite=None"], NOW), Ok(vec![end]));
        }
    }

    #[test]
    fn rewrites_lines_by_rules() {
        let long = format!("c=3; Path=/{}", "x".repeat(1024));
        let lines = ["a=; Expires=Thu, 1-Jan-70 0:00:00 UTC", "b=2; Max-Age=63072000", &long];
        let later = NOW + 400 * 24 * 60 * 60;
        for (rules, header, then) in [
            (Rules::none(), "a=; b=2", "a=; b=2"),
            (Rules { dates: true, ..Rules::none() }, "b=2", "b=2"),
            (Rules { long_lives: true, ..Rules::none() }, "a=; b=2", "a="),
            (Rules { long_attributes: true, ..Rules::none() }, "a=; b=2; c=3", "a=; b=2; c=3"),
            (Rules::browser(), "b=2; c=3", "c=3"),
        ] {
            let mut client = Client::with_rules(LIST, rules).unwrap();
            client.receive(URL, &lines, NOW).unwrap();
            assert_eq!(client.header(URL, NOW).unwrap(), header.as_bytes(), "{rules:?}");
            assert_eq!(client.header(URL, later).unwrap(), then.as_bytes(), "{rules:?}");
        }
    }

    #[test]
    fn tells_refusals() {
        assert_eq!(Client::new("a..b\n").err(), Some(Error::List));
        let mut client = Client::new(LIST).unwrap();
        assert_eq!(client.header("no url", NOW), Err(Error::Url));
        assert_eq!(client.header(URL, i64::MAX), Err(Error::Moment));
        assert_eq!(client.receive(URL, &["a=1\nb=2"], NOW), Err(Error::LineFeed));
        assert_eq!(client.receive(URL, &[""], NOW), Ok(vec![LineEnd::Parse]));
        assert_eq!(client.receive(URL, &["a=1; Domain=com"], NOW), Ok(vec![LineEnd::PublicSuffix]));
    }

    // A saved text of another hand: the cookie's value has a line break and a further field of the request.
    #[test]
    fn hands_out_no_header_of_two_lines() {
        let client = |pair: &str| {
            let mut client = Client::new(LIST).unwrap();
            client.receive(URL, &["a=1; Max-Age=60; Path=/", "b=2; Max-Age=60; Path=/"], NOW).unwrap();
            let saved = String::from_utf8(client.save(NOW).unwrap()).unwrap();
            Client::load(LIST, saved.replace("a=1", pair).as_bytes(), NOW).unwrap()
        };
        let without = Rules { control: false, ..Rules::browser() };
        for rules in [Rules::none(), without, Rules::browser()] {
            let wanted = if rules.control { Ok(b"b=2".to_vec()) } else { Err(Error::Line) };
            for pair in [r"a=1\r\nX-Evil: 1", r"a=1\n2", r"a\u{1}=1", r"a=\u{7f}"] {
                let mut client = client(pair);
                client.set_rules(rules);
                assert_eq!(client.header(URL, NOW), wanted, "{pair} {rules:?}");
                let by_link = Initiator::Navigation("https://evil.org/");
                assert_eq!(client.header_for(URL, by_link, NOW), wanted, "{pair} {rules:?}");
                assert_eq!(client.header(URL, i64::MAX), Err(Error::Moment));
                assert_eq!(client.header("no url", NOW), Err(Error::Url));
                assert_eq!(client.header("https://example.org/", NOW).unwrap(), b"");
            }
            let mut client = client(r"a=1\t2");
            client.set_rules(rules);
            assert_eq!(client.header(URL, NOW).unwrap(), b"a=1\t2; b=2");
        }
    }

    // Of two causes or more the one is told whose number in the header file is nearest to 0.
    #[test]
    fn tells_the_first_cause() {
        assert_eq!(Client::load("a..b", b"[(", i64::MAX).err(), Some(Error::List));
        assert_eq!(Client::load("a..b", b"[(", NOW).err(), Some(Error::List));
        assert_eq!(Client::load(LIST, b"[(", i64::MIN).err(), Some(Error::Moment));
        let mut client = Client::new(LIST).unwrap();
        assert_eq!(client.header("no url", i64::MAX), Err(Error::Moment));
        assert_eq!(client.receive("no url", &["a=1"], i64::MIN), Err(Error::Moment));
        // The year 0 begins at -62167219200.
        let below = -62_167_219_261;
        client.receive(URL, &["a=1; Max-Age=60"], below).unwrap();
        assert_eq!((client.save(below), client.restart(below)), (Err(Error::Year), Err(Error::Year)));
        assert_eq!((client.save(i64::MIN), client.restart(i64::MIN)), (Err(Error::Moment), Err(Error::Moment)));
        assert_eq!(suffix("a..b", "a..com"), Err(Error::List));
        let session = Session::open("", &Key::from(&[7; 64]), i64::MAX);
        assert_eq!(session.get(Way::Plain, ""), Err(Error::Moment));
        assert_eq!(Cookie::parse_encoded("=%ff").err(), Some(Error::EmptyName));
    }

    #[test]
    fn tells_refusals_in_words() {
        let numbers = [-1, -4, -5, -6, -7, -8, -10, -11, -12, -13, -14, -16, -17, -18, -21, -24];
        let mut words: Vec<String> = numbers.iter().map(|number| Error::of(*number).to_string()).collect();
        words.extend([Error::LineFeed, Error::Random].map(|error| error.to_string()));
        assert!(words.iter().all(|words| words.contains(' ') && words.is_ascii()), "{words:?}");
        words.sort();
        words.dedup();
        assert_eq!(words.len(), 18);
        assert_eq!(Error::of(-107).to_string(), "memory was refused at line 7");
        assert_eq!(Error::of(-9).to_string(), "the library answered -9");
    }

    // The rows of section 5.8.3, step 1, of the draft, and of its section 5.2 on sites.
    #[test]
    fn tells_what_starts_a_request() {
        let mut client = Client::new(LIST).unwrap();
        let lines = ["s=1; SameSite=Strict", "l=2; SameSite=Lax", "n=3; SameSite=None; Secure", "d=4"];
        client.receive(URL, &lines, NOW).unwrap();
        let by_default = Rules { lax_by_default: true, ..Rules::browser() };
        for (rules, initiator, header) in [
            (Rules::none(), Initiator::User, "s=1; l=2; n=3; d=4"),
            (Rules::none(), Initiator::Page("https://a.example.com/"), "s=1; l=2; n=3; d=4"),
            (Rules::none(), Initiator::Page("http://example.com/"), "n=3; d=4"),
            (Rules::none(), Initiator::Navigation("https://evil.org/"), "l=2; n=3; d=4"),
            (Rules::browser(), Initiator::Page("data:,"), "n=3; d=4"),
            (by_default, Initiator::Page("https://evil.org/"), "n=3"),
            (by_default, Initiator::Navigation("https://evil.org/"), "l=2; n=3; d=4"),
        ] {
            client.set_rules(rules);
            assert_eq!(client.header_for(URL, initiator, NOW).unwrap(), header.as_bytes(), "{initiator:?}");
        }
        assert_eq!(client.header_for(URL, Initiator::Page("no url"), NOW), Err(Error::Url));
        assert_eq!(client.header_for(URL, Initiator::Page(""), i64::MAX), Err(Error::Moment));
    }

    // The rows of section 5.7 of the draft.
    #[test]
    fn tells_what_started_an_answers_request() {
        const IN: LineEnd = LineEnd::Inserted;
        const SITE: LineEnd = LineEnd::Ruled(Rule::CrossSite);
        const NONE: LineEnd = LineEnd::Ruled(Rule::NoneLacksSecure);
        let lines = ["s=1; SameSite=Strict", "l=2; SameSite=Lax", "n=3; SameSite=None", "d=4"];
        let evil = "https://evil.org/";
        let by_default = Rules { lax_by_default: true, ..Rules::browser() };
        let needs_secure = Rules { none_needs_secure: true, ..Rules::none() };
        for (rules, initiator, ends) in [
            (Rules::none(), Initiator::User, [IN, IN, IN, IN]),
            (Rules::none(), Initiator::Page("https://a.example.com/"), [IN, IN, IN, IN]),
            (Rules::none(), Initiator::Page("http://example.com/"), [SITE, SITE, IN, IN]),
            (Rules::none(), Initiator::Page(evil), [SITE, SITE, IN, IN]),
            (Rules::browser(), Initiator::Navigation(evil), [IN, IN, IN, IN]),
            (by_default, Initiator::Page(evil), [SITE, SITE, IN, SITE]),
            (needs_secure, Initiator::Page(evil), [SITE, SITE, NONE, IN]),
            (needs_secure, Initiator::Navigation(evil), [IN, IN, NONE, IN]),
            (needs_secure, Initiator::User, [IN, IN, NONE, IN]),
        ] {
            let mut client = Client::with_rules(LIST, rules).unwrap();
            assert_eq!(client.receive_for(URL, initiator, &lines, NOW).unwrap(), ends, "{rules:?} {initiator:?}");
        }
        let mut client = Client::with_rules(LIST, needs_secure).unwrap();
        assert_eq!(client.receive(URL, &lines, NOW).unwrap(), [IN, IN, NONE, IN]);
        let mut client = Client::new(LIST).unwrap();
        assert_eq!(client.receive_for(URL, Initiator::Page("no url"), &["a=1"], NOW), Err(Error::Url));
        assert_eq!(client.receive_for(URL, Initiator::Page(""), &["a=1"], i64::MAX), Err(Error::Moment));
        assert_eq!(client.receive_for(URL, Initiator::User, &["a=1\nb=2"], NOW), Err(Error::LineFeed));
        assert_eq!(client.receive_for(URL, Initiator::User, &[""], NOW), Ok(vec![LineEnd::Parse]));
        assert_eq!(client.receive_for(URL, Initiator::User, &[""; 0], NOW), Ok(vec![]));
    }

    // What curl 7.88.1 wrote of a site, and what is refused of lines behind it.
    #[test]
    fn takes_what_curl_wrote() {
        let text = "# Netscape HTTP Cookie File\n# https://curl.se/docs/http-cookies.html\n\n\
                    .example.com\tTRUE\t/a/\tFALSE\t2795896097\tlang\ten\n\
                    example.com\tFALSE\t/\tFALSE\t0\tsid\t31d4\n\
                    #HttpOnly_example.com\tFALSE\t/\tFALSE\t2147169600\tuser\tann\n\
                    example.com\tFALSE\t/\tFALSE\t1\tgone\t\nno row\nexample.com\tFALSE\t/\tFALSE\t0\ta\tx\u{1}\n";
        let mut client = Client::new(LIST).unwrap();
        let done = client.import_cookies_txt(text.as_bytes(), NOW).unwrap();
        let refused = [(8, RowCause::Fields), (9, RowCause::Control)].map(|(line, cause)| RefusedLine { line, cause });
        assert_eq!(done, Imported { taken: 3, expired: 1, refused: refused.to_vec() });
        assert_eq!(client.header("http://example.com/a/b", NOW).unwrap(), b"lang=en; sid=31d4; user=ann");
        for (reader, sessions, lines) in [
            (Reader::Curl, true, 3),
            (Reader::Wget, true, 3),
            (Reader::Python, true, 3),
            (Reader::Curl, false, 2),
            (Reader::Wget, false, 2),
            (Reader::Python, false, 2),
        ] {
            let written = client.export_cookies_txt(reader, sessions, NOW).unwrap();
            let mut again = Client::new(LIST).unwrap();
            let done = again.import_cookies_txt(&written, NOW).unwrap();
            assert_eq!((done.taken, done.expired, done.refused.len()), (lines, 0, 0), "{reader:?}");
            let marked = again.iter(NOW).unwrap().filter(|it| it.is_http_only()).count();
            assert_eq!(marked, usize::from(reader != Reader::Wget));
        }
        assert_eq!(client.import_cookies_txt(b"", i64::MAX), Err(Error::Moment));
        assert_eq!(client.export_cookies_txt(Reader::Curl, true, i64::MIN), Err(Error::Moment));
        assert_eq!(client.len(NOW), Ok(3));
    }

    #[test]
    fn moves_between_threads() {
        let mut clients: Vec<Client> = (0..8).map(|_| Client::new(LIST).unwrap()).collect();
        for round in 0..4 {
            let work = move |mut client: Client| {
                client.receive(URL, &[format!("n{round}={round}")], NOW).unwrap();
                client
            };
            let threads: Vec<_> =
                clients.into_iter().map(|client| std::thread::spawn(move || work(client))).collect();
            clients = threads.into_iter().map(|thread| thread.join().unwrap()).collect();
        }
        for mut client in clients {
            assert_eq!(client.header(URL, NOW).unwrap(), b"n0=0; n1=1; n2=2; n3=3");
        }
    }

    #[test]
    fn takes_many_lines() {
        let lines: Vec<String> = (0..100_000).map(|i| format!("n{i}={i}; Path=/; Max-Age=60")).collect();
        let header = (0..100_000).map(|i| format!("n{i}={i}")).collect::<Vec<_>>().join("; ");
        let mut client = Client::new(LIST).unwrap();
        assert!(client.receive(URL, &lines, NOW).unwrap().iter().all(|end| *end == LineEnd::Inserted));
        assert!(client.header(URL, NOW).unwrap() == header.as_bytes());
        let by_page = Initiator::Page("https://evil.org/");
        let ends = client.receive_for(URL, by_page, &lines, NOW).unwrap();
        assert!(ends.len() == 100_000 && ends.iter().all(|end| *end == LineEnd::UpdatedExisting));
        let saved = client.save(NOW).unwrap();
        assert!(saved.len() > 4 << 20);
        assert!(Client::load(LIST, &saved, NOW + 1).unwrap().header(URL, NOW + 1).unwrap() == header.as_bytes());
    }
}
