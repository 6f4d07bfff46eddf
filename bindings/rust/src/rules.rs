//! The rules of user agents (the draft that follows RFC 6265, sections 5.5 to 5.7).

/// Which rules a client's lines come behind. Further rules may follow, so begin with some and change a field.
///
/// ```
/// let mut rules = fonnalich::Rules::browser();
/// rules.long_lives = false;
/// ```
#[derive(Clone, Copy, Debug, PartialEq, Eq)]
#[non_exhaustive]
pub struct Rules {
    /// Refuses a line with a control character other than a tab; and a header leaves out each cookie that has one in its
    /// name or value, as one of a saved text may.
    pub control: bool,
    /// Refuses one whose name and value have over 4,096 bytes together.
    pub too_long: bool,
    /// Refuses one of the prefix `__Secure-` in any case, decoded, that isn't Secure or isn't from https.
    pub secure_prefix: bool,
    /// Refuses one of the prefix `__Host-` in any case, decoded, that isn't as it asks or isn't from https.
    pub host_prefix: bool,
    /// Refuses a Secure one from a URL that isn't secure.
    pub secure_from_http: bool,
    /// Refuses one without Secure from such a URL, over a Secure cookie that hasn't expired.
    pub secure_overlay: bool,
    /// Passes over attributes whose value has over 1,024 bytes.
    pub long_attributes: bool,
    /// Reads dates in the forms in which servers send them.
    pub dates: bool,
    /// Cuts lives at 400 days.
    pub long_lives: bool,
    /// Leaves out of a header what isn't Secure and has the name, decoded, of a Secure cookie in it, and refuses one of
    /// `SameSite=None` or `Partitioned` that isn't Secure from a URL that isn't secure. No browser has it. It rests on
    /// `secure_from_http`: without that a Secure cookie may come from anyone.
    pub secure_wins: bool,
    /// [`Client::header_for`](crate::Client::header_for) and [`Client::receive_for`](crate::Client::receive_for) take a
    /// cookie without `SameSite` as one with `SameSite=Lax`. The draft has it, and Firefox and Safari don't.
    pub lax_by_default: bool,
    /// A cookie with `SameSite=None` that isn't Secure is refused. The draft has it, and Firefox and Safari don't.
    pub none_needs_secure: bool,
}

impl Rules {
    /// All rules that each browser has, and so all but `secure_wins`, `lax_by_default` and
    /// `none_needs_secure`.
    pub fn browser() -> Rules {
        Rules {
            control: true,
            too_long: true,
            secure_prefix: true,
            host_prefix: true,
            secure_from_http: true,
            secure_overlay: true,
            long_attributes: true,
            dates: true,
            long_lives: true,
            secure_wins: false,
            lax_by_default: false,
            none_needs_secure: false,
        }
    }

    /// No rule.
    pub fn none() -> Rules {
        Rules {
            control: false,
            too_long: false,
            secure_prefix: false,
            host_prefix: false,
            secure_from_http: false,
            secure_overlay: false,
            long_attributes: false,
            dates: false,
            long_lives: false,
            secure_wins: false,
            lax_by_default: false,
            none_needs_secure: false,
        }
    }

    pub(crate) fn flags(self) -> i64 {
        let refusing = [self.control, self.too_long, self.secure_prefix, self.host_prefix, self.secure_from_http];
        let others = [self.secure_overlay, self.long_attributes, self.dates, self.long_lives, self.secure_wins];
        let last = [self.lax_by_default, self.none_needs_secure];
        refusing.into_iter().chain(others).chain(last).rev().fold(0, |flags, is_on| flags * 2 + i64::from(is_on))
    }
}

/// A rule that refused a line.
#[derive(Clone, Copy, Debug, PartialEq, Eq)]
#[non_exhaustive]
pub enum Rule {
    Control,
    TooLong,
    SecurePrefix,
    HostPrefix,
    SecureFromHttp,
    SecureOverlay,
    LacksSecure,
    /// [`Client::receive_for`](crate::Client::receive_for) alone: a page of another site started the request, which
    /// doesn't navigate the top level, and the cookie is `Strict` or `Lax`.
    CrossSite,
    /// The cookie has `SameSite=None` and isn't Secure.
    NoneLacksSecure,
}

impl Rule {
    pub(crate) fn of(number: u8) -> Option<Rule> {
        match number {
            20 => Some(Rule::Control),
            21 => Some(Rule::TooLong),
            22 => Some(Rule::SecurePrefix),
            23 => Some(Rule::HostPrefix),
            24 => Some(Rule::SecureFromHttp),
            25 => Some(Rule::SecureOverlay),
            26 => Some(Rule::LacksSecure),
            27 => Some(Rule::CrossSite),
            28 => Some(Rule::NoneLacksSecure),
            _ => None,
        }
    }
}
