//! Reads the set-cookie-string that is given, and prints the cookie that it reads as.

unsafe extern "C" {
    fn cookie_normal_form(line: *const u8, line_length: usize, out: *mut u8, out_length: usize) -> isize;
}

fn normal_form(line: &str) -> Result<String, isize> {
    let mut out = vec![0; 4096];
    // The call reads `line` and writes at most `out.len()` bytes of `out`.
    let length = unsafe { cookie_normal_form(line.as_ptr(), line.len(), out.as_mut_ptr(), out.len()) };
    out.truncate(usize::try_from(length).map_err(|_| length)?);
    String::from_utf8(out).map_err(|_| -1)
}

fn main() {
    let line = std::env::args().nth(1).unwrap_or(" id=a3fWa ;path=/; SECURE; max-age=60; Other=1".into());
    match normal_form(&line) {
        Ok(cookie) => println!("{cookie}"),
        Err(code) => {
            eprintln!("no cookie: {code}");
            std::process::exit(1);
        }
    }
}
