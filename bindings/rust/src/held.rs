//! The cookies that a client holds.

use crate::SameSite;

/// A cookie that a client holds. Its name and value are as they were received. No two of a client have the same domain,
/// path and name.
#[derive(Clone, Debug, PartialEq, Eq)]
pub struct HeldCookie {
    domain: String,
    path: String,
    name: String,
    value: String,
    expires: Option<i64>,
    is_host_only: bool,
    is_secure: bool,
    is_http_only: bool,
    is_partitioned: bool,
    same_site: Option<SameSite>,
}

impl HeldCookie {
    /// The host that it is for, without a leading dot.
    pub fn domain(&self) -> &str {
        &self.domain
    }

    /// The path that it is for.
    pub fn path(&self) -> &str {
        &self.path
    }

    /// Its name, in which nothing is decoded.
    pub fn name(&self) -> &str {
        &self.name
    }

    /// Its value, in which nothing is decoded.
    pub fn value(&self) -> &str {
        &self.value
    }

    /// The second since 1970 at which it ends; none where that is the session's end.
    pub fn expires(&self) -> Option<i64> {
        self.expires
    }

    /// Whether it is for its domain alone, and else for the hosts below it too.
    pub fn is_host_only(&self) -> bool {
        self.is_host_only
    }

    /// Whether it goes with secure requests alone.
    pub fn is_secure(&self) -> bool {
        self.is_secure
    }

    /// Whether scripts are kept from it.
    pub fn is_http_only(&self) -> bool {
        self.is_http_only
    }

    /// Whether it is kept apart for each top-level site.
    pub fn is_partitioned(&self) -> bool {
        self.is_partitioned
    }

    /// Its attribute `SameSite`.
    pub fn same_site(&self) -> Option<SameSite> {
        self.same_site
    }
}

/// The cookies of an answer: six items each, the last two of the second of its end and of its flags.
pub(crate) fn cookies(answer: &[u8]) -> Vec<HeldCookie> {
    let mut items = Vec::new();
    let mut rest = answer;
    while let Some((length, behind)) = rest.split_first_chunk::<8>() {
        let (item, behind) = behind.split_at(u64::from_le_bytes(*length) as usize);
        items.push(item);
        rest = behind;
    }
    items.chunks_exact(6).map(cookie).collect()
}

fn cookie(items: &[&[u8]]) -> HeldCookie {
    let text = |item: &[u8]| String::from_utf8_lossy(item).into_owned();
    let flags = items[5];
    let end = items[4].iter().rev().fold(0, |sum, byte| sum << 8 | u64::from(*byte));
    HeldCookie {
        domain: text(items[0]),
        path: text(items[1]),
        name: text(items[2]),
        value: text(items[3]),
        expires: (flags[0] == 1).then_some(end as i64),
        is_host_only: flags[1] == 1,
        is_secure: flags[2] == 1,
        is_http_only: flags[3] == 1,
        is_partitioned: flags[4] == 1,
        same_site: match flags[5] {
            1 => Some(SameSite::Strict),
            2 => Some(SameSite::Lax),
            3 => Some(SameSite::None),
            _ => None,
        },
    }
}
