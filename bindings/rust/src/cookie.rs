//! A cookie by itself: its parts, read from a text and printed to one.

use crate::library::{self, Attributes};
use crate::site::{answered, items};
use crate::Error;
use std::fmt;

// The first second of the year -9999, and the last of 9999.
const FIRST_SECOND: i64 = -377_705_116_800;
const LAST_SECOND: i64 = 253_402_300_799;

/// Which requests from other sites carry a cookie.
#[derive(Clone, Copy, Debug, PartialEq, Eq)]
pub enum SameSite {
    Strict,
    Lax,
    None,
}

/// A cookie: a name, a value and attributes. It prints its `Set-Cookie` line, in which nothing is escaped.
///
/// ```
/// use fonnalich::Cookie;
///
/// let cookie = Cookie::parse_encoded("cart=3%204; Path=/; Max-Age=60")?;
/// assert_eq!((cookie.value(), cookie.path(), cookie.max_age()), ("3 4", Some("/"), Some(60)));
/// let longer = Cookie::build(cookie).max_age(90).http_only(true).build();
/// assert_eq!(longer.encoded().to_string(), "cart=3%204; HttpOnly; Path=/; Max-Age=90");
/// # Ok::<(), fonnalich::Error>(())
/// ```
#[derive(Clone, Debug, PartialEq, Eq)]
pub struct Cookie {
    name: String,
    value: String,
    path: Option<String>,
    domain: Option<String>,
    max_age: Option<i64>,
    expires: Option<i64>,
    http_only: bool,
    secure: bool,
    partitioned: bool,
    same_site: Option<SameSite>,
}

impl Cookie {
    /// A cookie of this name and value, without an attribute.
    pub fn new(name: impl Into<String>, value: impl Into<String>) -> Cookie {
        Cookie {
            name: name.into(),
            value: value.into(),
            path: None,
            domain: None,
            max_age: None,
            expires: None,
            http_only: false,
            secure: false,
            partitioned: false,
            same_site: None,
        }
    }

    /// A builder that starts from a cookie, or from a name and a value.
    pub fn build(base: impl Into<Cookie>) -> CookieBuilder {
        CookieBuilder { cookie: base.into() }
    }

    /// The cookie of a `Set-Cookie` line, or of a pair of a `Cookie` header.
    ///
    /// `MissingPair` where the text before the first `;` has no `=`, `EmptyName` where nothing stands before that.
    pub fn parse(text: impl AsRef<str>) -> Result<Cookie, Error> {
        Cookie::read(false, text.as_ref())
    }

    /// The same, whose name and value are percent-decoded.
    ///
    /// `Utf8Error` where they are no UTF-8 then.
    pub fn parse_encoded(text: impl AsRef<str>) -> Result<Cookie, Error> {
        Cookie::read(true, text.as_ref())
    }

    /// The cookie of each pair of a `Cookie` header, in their order: what stands between two `;` and isn't blank.
    ///
    /// ```
    /// use fonnalich::Cookie;
    ///
    /// let names: Vec<_> = Cookie::split_parse("a=1; b=2").flatten().map(|cookie| cookie.name().to_owned()).collect();
    /// assert_eq!(names, ["a", "b"]);
    /// ```
    pub fn split_parse(header: &str) -> SplitCookies<'_> {
        SplitCookies { rest: Some(header), decode: false }
    }

    /// The same, whose names and values are percent-decoded.
    pub fn split_parse_encoded(header: &str) -> SplitCookies<'_> {
        SplitCookies { rest: Some(header), decode: true }
    }

    /// The name.
    pub fn name(&self) -> &str {
        &self.name
    }

    /// The value.
    pub fn value(&self) -> &str {
        &self.value
    }

    /// The path of the requests that carry it.
    pub fn path(&self) -> Option<&str> {
        self.path.as_deref()
    }

    /// The domain of the requests that carry it; what was read has lost one leading dot.
    pub fn domain(&self) -> Option<&str> {
        self.domain.as_deref()
    }

    /// How many seconds it lives.
    pub fn max_age(&self) -> Option<i64> {
        self.max_age
    }

    /// The second since 1970 at which it ends.
    pub fn expires(&self) -> Option<i64> {
        self.expires
    }

    /// Whether scripts are to be kept from it.
    pub fn http_only(&self) -> bool {
        self.http_only
    }

    /// Whether it is for secure requests alone.
    pub fn secure(&self) -> bool {
        self.secure
    }

    /// Whether it is kept apart for each top-level site.
    pub fn partitioned(&self) -> bool {
        self.partitioned
    }

    /// Which requests from other sites carry it.
    pub fn same_site(&self) -> Option<SameSite> {
        self.same_site
    }

    /// What prints the line with the name and the value percent-encoded.
    pub fn encoded(&self) -> Encoded<'_> {
        Encoded { cookie: self }
    }

    fn read(decode: bool, text: &str) -> Result<Cookie, Error> {
        let mut read = Attributes::default();
        let answer = answered(|out| {
            // The call reads the text, writes the attributes and within `out`.
            unsafe {
                library::fonnalich_parse(decode, text.as_ptr(), text.len(), &mut read, out.as_mut_ptr(), out.len())
            }
        })?;
        let mut texts = items(&answer).into_iter();
        let mut next = || texts.next().flatten();
        Ok(Cookie {
            name: next().unwrap_or_default(),
            value: next().unwrap_or_default(),
            path: next(),
            domain: next(),
            max_age: read.has_max_age.then_some(read.max_age),
            expires: read.has_expires.then_some(read.expires),
            http_only: read.http_only,
            secure: read.secure,
            partitioned: read.partitioned,
            same_site: site_of(read.same_site),
        })
    }

    /// The same without its path. `Place` where it has a domain, or another path than `/`.
    pub(crate) fn everywhere(self) -> Result<Cookie, Error> {
        if self.domain.is_some() || self.path.as_ref().is_some_and(|path| path != "/") {
            return Err(Error::Place);
        }
        Ok(Cookie { path: None, ..self })
    }

    /// The same with this end alone.
    pub(crate) fn until(self, second: i64) -> Cookie {
        Cookie { max_age: None, expires: Some(second), ..self }
    }

    /// What it prints; memory alone refuses it.
    pub(crate) fn printed(&self, encode: bool) -> Result<String, Error> {
        let attributes = self.attributes();
        let (path, domain) = (self.path().unwrap_or(""), self.domain().unwrap_or(""));
        let line = answered(|out| {
            // The call reads the attributes and the four texts, and writes within `out`.
            unsafe {
                library::fonnalich_print(
                    encode,
                    &attributes,
                    self.name.as_ptr(),
                    self.name.len(),
                    self.value.as_ptr(),
                    self.value.len(),
                    path.as_ptr(),
                    path.len(),
                    domain.as_ptr(),
                    domain.len(),
                    out.as_mut_ptr(),
                    out.len(),
                )
            }
        })?;
        Ok(String::from_utf8_lossy(&line).into_owned())
    }

    fn attributes(&self) -> Attributes {
        Attributes {
            max_age: self.max_age.unwrap_or(0),
            expires: self.expires.unwrap_or(0).clamp(FIRST_SECOND, LAST_SECOND),
            has_max_age: self.max_age.is_some(),
            has_expires: self.expires.is_some(),
            has_path: self.path.is_some(),
            has_domain: self.domain.is_some(),
            http_only: self.http_only,
            secure: self.secure,
            partitioned: self.partitioned,
            same_site: self.same_site.map_or(0, |site| site as u8 + 1),
        }
    }
}

fn site_of(number: u8) -> Option<SameSite> {
    match number {
        1 => Some(SameSite::Strict),
        2 => Some(SameSite::Lax),
        3 => Some(SameSite::None),
        _ => None,
    }
}

/// Prints the line; nothing of it is escaped.
impl fmt::Display for Cookie {
    fn fmt(&self, to: &mut fmt::Formatter<'_>) -> fmt::Result {
        to.write_str(&self.printed(false).map_err(|_| fmt::Error)?)
    }
}

impl<N: Into<String>, V: Into<String>> From<(N, V)> for Cookie {
    fn from((name, value): (N, V)) -> Cookie {
        Cookie::new(name, value)
    }
}

impl From<CookieBuilder> for Cookie {
    fn from(builder: CookieBuilder) -> Cookie {
        builder.build()
    }
}

/// The cookies of a `Cookie` header, each read as it is asked for.
#[derive(Clone, Debug)]
pub struct SplitCookies<'h> {
    rest: Option<&'h str>,
    decode: bool,
}

impl Iterator for SplitCookies<'_> {
    type Item = Result<Cookie, Error>;

    fn next(&mut self) -> Option<Result<Cookie, Error>> {
        while let Some(rest) = self.rest {
            let (pair, left) = rest.split_once(';').map_or((rest, None), |(pair, left)| (pair, Some(left)));
            self.rest = left;
            if !pair.trim().is_empty() {
                return Some(Cookie::read(self.decode, pair.trim()));
            }
        }
        None
    }
}

/// What prints a cookie with its name and value percent-encoded.
pub struct Encoded<'c> {
    cookie: &'c Cookie,
}

impl fmt::Display for Encoded<'_> {
    fn fmt(&self, to: &mut fmt::Formatter<'_>) -> fmt::Result {
        to.write_str(&self.cookie.printed(true).map_err(|_| fmt::Error)?)
    }
}

/// A cookie that is being made.
#[derive(Clone, Debug, PartialEq, Eq)]
pub struct CookieBuilder {
    cookie: Cookie,
}

impl CookieBuilder {
    /// The path of the requests that carry it.
    pub fn path(mut self, path: impl Into<String>) -> CookieBuilder {
        self.cookie.path = Some(path.into());
        self
    }

    /// The domain of the requests that carry it.
    pub fn domain(mut self, domain: impl Into<String>) -> CookieBuilder {
        self.cookie.domain = Some(domain.into());
        self
    }

    /// How many seconds it lives.
    pub fn max_age(mut self, seconds: i64) -> CookieBuilder {
        self.cookie.max_age = Some(seconds);
        self
    }

    /// The second since 1970 at which it ends; one out of the years -9999 to 9999 is printed as the nearest of them.
    pub fn expires(mut self, second: i64) -> CookieBuilder {
        self.cookie.expires = Some(second);
        self
    }

    /// Whether scripts are to be kept from it.
    pub fn http_only(mut self, is: bool) -> CookieBuilder {
        self.cookie.http_only = is;
        self
    }

    /// Whether it is for secure requests alone. A partitioned cookie, and one of `SameSite::None`, is printed so.
    pub fn secure(mut self, is: bool) -> CookieBuilder {
        self.cookie.secure = is;
        self
    }

    /// Whether it is kept apart for each top-level site.
    pub fn partitioned(mut self, is: bool) -> CookieBuilder {
        self.cookie.partitioned = is;
        self
    }

    /// Which requests from other sites carry it.
    pub fn same_site(mut self, site: SameSite) -> CookieBuilder {
        self.cookie.same_site = Some(site);
        self
    }

    /// The cookie.
    pub fn build(self) -> Cookie {
        self.cookie
    }
}

#[cfg(test)]
mod tests {
    use super::*;

    // A line of RFC 6265, section 3.1, and the date of RFC 9110, section 5.6.7.
    #[test]
    fn is_read() {
        let cookie = Cookie::parse("SID=31d4d96e407aad42; Path=/; Domain=.example.com; Secure; HttpOnly").unwrap();
        assert_eq!((cookie.name(), cookie.value()), ("SID", "31d4d96e407aad42"));
        assert_eq!((cookie.path(), cookie.domain()), (Some("/"), Some("example.com")));
        assert_eq!((cookie.secure(), cookie.http_only(), cookie.partitioned()), (true, true, false));
        assert_eq!((cookie.max_age(), cookie.expires(), cookie.same_site()), (None, None, None));
        let text = "a=1; Max-Age=60; Expires=Sun, 06 Nov 1994 08:49:37 GMT; samesite=lax; Partitioned";
        let cookie = Cookie::parse(text).unwrap();
        assert_eq!((cookie.max_age(), cookie.expires()), (Some(60), Some(784_111_777)));
        assert_eq!((cookie.same_site(), cookie.partitioned()), (Some(SameSite::Lax), true));
        assert_eq!((cookie.path(), cookie.domain(), cookie.secure()), (None, None, false));
    }

    #[test]
    fn is_decoded_where_that_is_asked() {
        let text = "a%20b=%C3%A9; Path=/%20";
        assert_eq!(Cookie::parse(text), Ok(Cookie::build(("a%20b", "%C3%A9")).path("/%20").build()));
        assert_eq!(Cookie::parse_encoded(text), Ok(Cookie::build(("a b", "é")).path("/%20").build()));
    }

    // RFC 6265, section 4.2.1, and what upstream passes over.
    #[test]
    fn is_read_of_a_header() {
        let read = |header| Cookie::split_parse(header).collect::<Result<Vec<_>, _>>();
        let two = Ok(vec![Cookie::new("SID", "31d4d96e407aad42"), Cookie::new("lang", "en-US")]);
        assert_eq!(read("SID=31d4d96e407aad42; lang=en-US"), two);
        assert_eq!(read(" ;; SID=31d4d96e407aad42;lang=en-US ; "), two);
        assert_eq!((read(""), read(" ; ")), (Ok(vec![]), Ok(vec![])));
        let each: Vec<_> = Cookie::split_parse("a=%20; b; =c; d=%ff").collect();
        let wrong = [Err(Error::MissingPair), Err(Error::EmptyName)];
        assert_eq!(each[1..3], wrong);
        assert_eq!((&each[0], &each[3]), (&Ok(Cookie::new("a", "%20")), &Ok(Cookie::new("d", "%ff"))));
        let each: Vec<_> = Cookie::split_parse_encoded("a=%20; d=%ff").collect();
        assert_eq!(each, [Ok(Cookie::new("a", " ")), Err(Error::Utf8Error)]);
        let header = (0..100_000).map(|i| format!("n{i}={i}")).collect::<Vec<_>>().join("; ");
        assert_eq!(Cookie::split_parse(&header).flatten().count(), 100_000);
    }

    #[test]
    fn is_printed() {
        assert_eq!(Cookie::new("a b", "é;").to_string(), "a b=é;");
        assert_eq!(Cookie::new("a b", "é;").encoded().to_string(), "a%20b=%C3%A9%3B");
        let base = || Cookie::build(("a", "1"));
        let printed = [
            (base().path("/"), "a=1; Path=/"),
            (base().domain(".example.com"), "a=1; Domain=example.com"),
            (base().max_age(-5), "a=1; Max-Age=-5"),
            (base().expires(784_111_777), "a=1; Expires=Sun, 06 Nov 1994 08:49:37 GMT"),
            (base().http_only(true), "a=1; HttpOnly"),
            (base().secure(true), "a=1; Secure"),
            (base().partitioned(true), "a=1; Partitioned; Secure"),
            (base().same_site(SameSite::Strict), "a=1; SameSite=Strict"),
            (base().same_site(SameSite::Lax), "a=1; SameSite=Lax"),
            (base().same_site(SameSite::None), "a=1; SameSite=None; Secure"),
        ];
        for (builder, line) in printed {
            assert_eq!(builder.build().to_string(), line);
        }
    }

    // The last second of February in a leap year, the first of 1970, and those past the calendar.
    #[test]
    fn ends_in_the_calendar() {
        let dates = [
            (951_868_799, "Tue, 29 Feb 2000 23:59:59 GMT"),
            (0, "Thu, 01 Jan 1970 00:00:00 GMT"),
            (i64::MAX, "Fri, 31 Dec 9999 23:59:59 GMT"),
        ];
        for (second, date) in dates {
            assert_eq!(Cookie::build(("a", "1")).expires(second).build().to_string(), format!("a=1; Expires={date}"));
        }
        assert!(Cookie::build(("a", "1")).expires(i64::MIN).build().to_string().contains("-9999"));
    }

    #[test]
    fn comes_back() {
        let cookie = Cookie::build(("n;m", "\u{e9}\n=%".repeat(1000))).path("/a b").domain("example.com").max_age(7);
        let cookie = cookie.expires(784_111_777).http_only(true).secure(true).same_site(SameSite::None).build();
        assert_eq!(Cookie::parse_encoded(cookie.encoded().to_string()), Ok(cookie));
    }

    #[test]
    fn tells_refusals() {
        assert_eq!(Cookie::parse("a; b=1"), Err(Error::MissingPair));
        assert_eq!(Cookie::parse(""), Err(Error::MissingPair));
        assert_eq!(Cookie::parse(" =1"), Err(Error::EmptyName));
        assert_eq!(Cookie::parse_encoded("a=%ff"), Err(Error::Utf8Error));
        assert_eq!(Cookie::parse("a=%ff").map(|cookie| cookie.value().to_owned()), Ok("%ff".to_owned()));
    }
}
