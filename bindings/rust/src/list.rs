//! A public suffix list.

use crate::handle::{Held, Word};
use crate::Error;
use std::fmt;
use std::fs;
use std::io;
use std::path::{Path, PathBuf};
use std::sync::{Arc, Mutex, MutexGuard, PoisonError};

const SYSTEM: &str = "/usr/share/publicsuffix/public_suffix_list.dat";

/// A public suffix list, which says for what nobody may set a cookie. Copies and clients share it: it is read once, and
/// lies in memory once.
///
/// ```
/// use fonnalich::{Client, Error, List};
///
/// let list = List::new("com\norg\n")?;
/// let (shop, bank) = (Client::new(&list)?, Client::new(&list)?);
/// assert_eq!(List::new("lists/public_suffix_list.dat").err(), Some(Error::List));
/// # Ok::<(), Error>(())
/// ```
#[derive(Clone)]
pub struct List {
    shared: Arc<Mutex<Held>>,
}

impl List {
    /// The list of a text. `List` where it is none, as a path in its place, `NoRule` where it has no rule, or is of one
    /// line and names a file: one that is there, or any that ends in `.dat` or `.txt`.
    pub fn new(text: impl AsRef<[u8]>) -> Result<List, Error> {
        let mut held = Held::begun();
        held.act(Word::KeepList, 0, b"", text.as_ref())?;
        refuse_file(text.as_ref())?;
        Ok(List { shared: Arc::new(Mutex::new(held)) })
    }

    /// The list of a file.
    pub fn from_file(path: impl AsRef<Path>) -> Result<List, ListError> {
        let path = path.as_ref();
        let mut text = fs::read(path).map_err(|why| ListError::File(path.to_owned(), why))?;
        // (as a line that is ended one rule alone isn't looked for as a file)
        text.push(b'\n');
        List::new(text).map_err(|why| ListError::Text(path.to_owned(), why))
    }

    /// The list of Debian's package `publicsuffix`: `File` where it isn't installed.
    pub fn system() -> Result<List, ListError> {
        List::from_file(SYSTEM)
    }
}

impl List {
    /// Has a handle keep it.
    pub(crate) fn share(&self, to: &mut Held) -> Result<(), Error> {
        to.share(&mut self.lock())
    }

    /// What is asked of it for a host or a URL.
    pub(crate) fn ask(&self, word: Word, text: &str) -> Result<String, Error> {
        let mut held = self.lock();
        let answer = held.act(word, 0, text.as_bytes(), b"")?;
        Ok(String::from_utf8_lossy(answer).into_owned())
    }

    fn lock(&self) -> MutexGuard<'_, Held> {
        // (no call leaves a handle half done)
        self.shared.lock().unwrap_or_else(PoisonError::into_inner)
    }
}

impl fmt::Debug for List {
    fn fmt(&self, to: &mut fmt::Formatter<'_>) -> fmt::Result {
        to.debug_struct("List").finish_non_exhaustive()
    }
}

/// A public suffix list, or the text of one as bytes or `str`, which is read anew by each call that takes it.
pub trait Suffixes {
    #[doc(hidden)]
    fn given(&self) -> Given<'_>;
}

#[doc(hidden)]
pub enum Given<'l> {
    List(&'l List),
    Text(&'l [u8]),
}

impl Suffixes for List {
    fn given(&self) -> Given<'_> {
        Given::List(self)
    }
}

impl Suffixes for &List {
    fn given(&self) -> Given<'_> {
        Given::List(self)
    }
}

impl<T: AsRef<[u8]>> Suffixes for T {
    fn given(&self) -> Given<'_> {
        Given::Text(self.as_ref())
    }
}

// What stands behind a file's refusal.
const WHOLE: &str = "put there the whole one, of publicsuffix.org, or take List::system";

/// Why a file gives no list.
#[derive(Debug)]
#[non_exhaustive]
pub enum ListError {
    /// The file at this path wasn't read.
    File(PathBuf, io::Error),
    /// Its text is refused.
    Text(PathBuf, Error),
}

impl fmt::Display for ListError {
    fn fmt(&self, to: &mut fmt::Formatter<'_>) -> fmt::Result {
        match self {
            ListError::File(path, why) => write!(to, "{}: {why}", path.display()),
            ListError::Text(path, Error::List) => {
                write!(to, "{}: the text is no public suffix list: {WHOLE}", path.display())
            }
            ListError::Text(path, Error::NoRule) => {
                write!(to, "{}: the suffix list has no rule: {WHOLE}", path.display())
            }
            ListError::Text(path, why) => write!(to, "{}: {why}", path.display()),
        }
    }
}

impl std::error::Error for ListError {}

/// `NoRule` where the text is the name of a file, which could be a rule: by it a site might set cookies for all of
/// `com`.
pub(crate) fn refuse_file(text: &[u8]) -> Result<(), Error> {
    (!is_file(text)).then_some(()).ok_or(Error::NoRule)
}

// Whether a text is of one line and names a file, which could be a rule: one that is there, or any that ends in `.dat`
// or `.txt`, in any case and with white space around it.
fn is_file(text: &[u8]) -> bool {
    // (Unicode's white space ends a rule too)
    let name = String::from_utf8_lossy(text).trim().to_ascii_lowercase();
    if name.ends_with(".dat") || name.ends_with(".txt") {
        return !name.contains(['\n', '\0']);
    }
    // Before a line feed it is a rule, whatever is there.
    !text.contains(&b'\n') && std::str::from_utf8(text).is_ok_and(|name| Path::new(name).is_file())
}

#[cfg(test)]
mod tests {
    use super::*;
    use crate::{shard, shard_of_url, suffix, Client, LineEnd};

    const URL: &str = "https://a.example.com/";
    const NOW: i64 = 1_700_000_000;

    // A path, a file's name, a page in the place of the list, comments and white space.
    #[test]
    fn is_refused_without_a_rule() {
        for (text, error) in [
            (SYSTEM, Error::List),
            ("public_suffix_list.dat", Error::List),
            ("C:\\lists\\list", Error::List),
            ("/list", Error::List),
            ("<html>\n", Error::List),
            ("a/b\n*.ck\n!www.ck\n", Error::List),
            ("a..b\n", Error::List),
            ("Cargo.toml", Error::NoRule),
            ("not-there.dat", Error::NoRule),
            ("list.txt", Error::NoRule),
            ("LIST.DAT", Error::NoRule),
            (" x.dat\r\n", Error::NoRule),
            ("x.dat\u{a0}", Error::NoRule),
            ("My Lists/x.dat", Error::NoRule),
            ("", Error::NoRule),
            ("\n\n", Error::NoRule),
            ("\u{feff}", Error::NoRule),
            ("// com\n", Error::NoRule),
            (" com\n", Error::NoRule),
        ] {
            assert_eq!(List::new(text).err(), Some(error), "{text:?}");
            assert_eq!(Client::new(text).err(), Some(error), "{text:?}");
            assert_eq!(suffix(text, "a.com"), Err(error), "{text:?}");
            assert_eq!(Client::with_rules(text, crate::Rules::browser()).err(), Some(error), "{text:?}");
        }
        let mut client = Client::new("com\n").unwrap();
        let saved = client.save(NOW).unwrap();
        assert_eq!(Client::load("// none", &saved, NOW).err(), Some(Error::NoRule));
        client = Client::load("com\n", &saved, NOW).unwrap();
        assert_eq!(client.receive(URL, &["a=1; Domain=com"], NOW), Ok(vec![LineEnd::PublicSuffix]));
    }

    #[test]
    fn has_a_rule() {
        let odd = ["\u{feff}com\r\n", "// x\n\n*\n", "a.b\ncom rest", "рф\n", "xn--p1ai\n", "*.ck\n!www.ck\n"];
        for text in ["com", "github.io", "x.dat\ncom", "Cargo.toml\n", "a.*.ck\n"].into_iter().chain(odd) {
            assert!(List::new(text).is_ok() && Client::new(text).is_ok(), "{text:?}");
        }
    }

    // A client keeps the list of its beginning, as long as it lives.
    #[test]
    fn is_shared_by_clients() {
        let list = List::new("com\norg\n").unwrap();
        let copy = list.clone();
        let mut clients: Vec<_> = (0..100).map(|_| Client::new(&list).unwrap()).collect();
        let saved = clients[0].save(NOW).unwrap();
        clients.push(Client::load(&list, &saved, NOW).unwrap());
        clients.push(Client::new(list).unwrap());
        assert_eq!((suffix(&copy, "a.b.com").as_deref(), shard(&copy, "a.b.com").as_deref()), (Ok("com"), Ok("b.com")));
        assert_eq!(shard_of_url(&copy, "https://a.b.com/").as_deref(), Ok("b.com"));
        assert_eq!((suffix(&copy, "a..com"), shard_of_url(&copy, "a")), (Err(Error::Host), Err(Error::Url)));
        assert_eq!(Client::load(&copy, b"[(", NOW).err(), Some(Error::Saved));
        drop(copy);
        let work = |mut client: Client| {
            let ends = client.receive(URL, &["a=1; Domain=com", "b=2"], NOW);
            assert_eq!(ends, Ok(vec![LineEnd::PublicSuffix, LineEnd::Inserted]));
        };
        let threads: Vec<_> = clients.into_iter().map(|client| std::thread::spawn(move || work(client))).collect();
        threads.into_iter().for_each(|thread| thread.join().unwrap());
    }

    // Copies of a list and clients by it begin and end on several threads at once, and the first copy ends meanwhile.
    #[test]
    fn is_shared_between_threads() {
        fn is_shared<T: Send + Sync>(it: T) -> T {
            it
        }
        let list = is_shared(List::new("com\norg\n*.ck\n").unwrap());
        let work = |list: List| {
            for _ in 0..50 {
                let copy = list.clone();
                let mut client = Client::new(&copy).unwrap();
                drop(copy);
                let ends = client.receive(URL, &["a=1; Domain=com", "b=2"], NOW);
                assert_eq!(ends, Ok(vec![LineEnd::PublicSuffix, LineEnd::Inserted]));
                assert_eq!(suffix(&list, "a.b.ck").as_deref(), Ok("b.ck"));
            }
        };
        let of_one = |list: List| std::thread::spawn(move || work(list));
        let threads: Vec<_> = (0..8).map(|_| of_one(list.clone())).collect();
        drop(list);
        threads.into_iter().for_each(|thread| thread.join().unwrap());
    }

    #[test]
    fn is_read_from_a_file() {
        let path = std::env::temp_dir().join(format!("fonnalich-list-{}.dat", std::process::id()));
        fs::write(&path, "com\n").unwrap();
        let list = List::from_file(&path).unwrap();
        assert_eq!((suffix(&list, "a.com").as_deref(), format!("{list:?}").as_str()), (Ok("com"), "List { .. }"));
        fs::write(&path, "list/list").unwrap();
        let told = List::from_file(&path).unwrap_err().to_string();
        assert_eq!(told, format!("{}: the text is no public suffix list: {WHOLE}", path.display()));
        fs::write(&path, "// com").unwrap();
        let told = List::from_file(&path).unwrap_err().to_string();
        assert_eq!(told, format!("{}: the suffix list has no rule: {WHOLE}", path.display()));
        // (of one rule, which is the name of a file that is there)
        fs::write(&path, "Cargo.toml").unwrap();
        assert_eq!(suffix(&List::from_file(&path).unwrap(), "a.cargo.toml").as_deref(), Ok("cargo.toml"));
        assert_eq!(List::new("Cargo.toml").err(), Some(Error::NoRule));
        fs::remove_file(&path).unwrap();
        let told = List::from_file(&path).unwrap_err().to_string();
        assert_eq!(told, format!("{}: No such file or directory (os error 2)", path.display()));
    }

    // The file's own rules: `*.ck` and `!www.ck` among them.
    #[test]
    fn is_the_systems() {
        let list = match List::system() {
            Err(ListError::File(path, why)) if why.kind() == io::ErrorKind::NotFound => {
                return assert!(path == Path::new(SYSTEM) && !path.exists());
            }
            read => read.unwrap(),
        };
        assert_eq!(suffix(&list, "a.b.example.co.uk").as_deref(), Ok("co.uk"));
        assert_eq!((suffix(&list, "a.b.ck").as_deref(), suffix(&list, "a.www.ck").as_deref()), (Ok("b.ck"), Ok("ck")));
        let mut client = Client::new(&list).unwrap();
        let ends = client.receive("https://a.co.uk/", &["a=1; Domain=co.uk", "b=2; Domain=a.co.uk"], NOW);
        assert_eq!(ends, Ok(vec![LineEnd::PublicSuffix, LineEnd::Inserted]));
    }
}
