//! What plain_desk.rs stands on: statements of SQLite's C library, JSON as far as bodies and replies need it, the forms of
//! addresses, names, keys and dates, and what a call is told.
use std::cell::RefCell;
use std::collections::HashMap;
use std::ffi::{c_char, c_int, c_void, CString};

// ---- SQLite

extern "C" {
    fn sqlite3_open(name: *const c_char, base: *mut *mut c_void) -> c_int;
    fn sqlite3_exec(base: *mut c_void, text: *const c_char, a: *const c_void, b: *const c_void, c: *mut c_void) -> c_int;
    fn sqlite3_prepare_v2(a: *mut c_void, text: *const c_char, n: c_int, made: *mut *mut c_void, b: *mut c_void) -> c_int;
    fn sqlite3_bind_text(made: *mut c_void, at: c_int, text: *const u8, n: c_int, free: isize) -> c_int;
    fn sqlite3_bind_int64(made: *mut c_void, at: c_int, number: i64) -> c_int;
    fn sqlite3_step(made: *mut c_void) -> c_int;
    fn sqlite3_reset(made: *mut c_void) -> c_int;
    fn sqlite3_column_text(made: *mut c_void, at: c_int) -> *const u8;
    fn sqlite3_column_bytes(made: *mut c_void, at: c_int) -> c_int;
    fn sqlite3_column_int64(made: *mut c_void, at: c_int) -> i64;
    fn sqlite3_changes(base: *mut c_void) -> c_int;
}

pub enum Value<'a> {
    Text(&'a str),
    Number(i64),
}
pub use Value::{Number as N, Text as T};

pub struct Row(*mut c_void);

impl Row {
    pub fn text(&self, at: c_int) -> String {
        let (text, count) = unsafe { (sqlite3_column_text(self.0, at), sqlite3_column_bytes(self.0, at)) };
        if count == 0 {
            return String::new();
        }
        String::from_utf8_lossy(unsafe { std::slice::from_raw_parts(text, count as usize) }).into_owned()
    }
    pub fn number(&self, at: c_int) -> i64 {
        unsafe { sqlite3_column_int64(self.0, at) }
    }
}

pub struct Base {
    base: *mut c_void,
    made: RefCell<HashMap<&'static str, *mut c_void>>,
}

impl Base {
    pub fn open(name: &str) -> Base {
        let (name, mut base) = (CString::new(name).unwrap(), std::ptr::null_mut());
        assert_eq!(unsafe { sqlite3_open(name.as_ptr(), &mut base) }, 0);
        Base { base, made: RefCell::default() }
    }
    pub fn script(&self, text: &str) {
        let text = CString::new(text).unwrap();
        let none = std::ptr::null_mut();
        assert_eq!(unsafe { sqlite3_exec(self.base, text.as_ptr(), none, none, none) }, 0, "{text:?}");
    }
    /// What `each` makes of each row.
    pub fn rows<R>(&self, text: &'static str, values: &[Value], mut each: impl FnMut(&Row) -> R) -> Vec<R> {
        let made = *self.made.borrow_mut().entry(text).or_insert_with(|| {
            let (mut made, none) = (std::ptr::null_mut(), std::ptr::null_mut());
            let sent = CString::new(text).unwrap();
            assert_eq!(unsafe { sqlite3_prepare_v2(self.base, sent.as_ptr(), -1, &mut made, none) }, 0, "{text}");
            made
        });
        let mut found = Vec::new();
        unsafe {
            for (at, value) in (1..).zip(values) {
                match value {
                    // (the text stays until the statement is reset)
                    T(it) => sqlite3_bind_text(made, at, it.as_ptr(), it.len() as c_int, 0),
                    N(it) => sqlite3_bind_int64(made, at, *it),
                };
            }
            let mut status = sqlite3_step(made);
            while status == 100 {
                found.push(each(&Row(made)));
                status = sqlite3_step(made);
            }
            assert_eq!(status, 101, "{text}");
            sqlite3_reset(made);
        }
        found
    }
    pub fn change(&self, text: &'static str, values: &[Value]) -> i64 {
        self.rows(text, values, |_| ());
        unsafe { sqlite3_changes(self.base) as i64 }
    }
}

// ---- JSON, as far as bodies and replies need it

pub enum Json {
    Text(String),
    Number(i64),
    List(Vec<String>),
}

pub struct Reader<'a>(pub std::iter::Peekable<std::str::Chars<'a>>);

impl Reader<'_> {
    fn text(&mut self) -> Option<String> {
        let mut text = String::new();
        (self.0.next()? == '"').then_some(())?;
        loop {
            match self.0.next()? {
                '"' => return Some(text),
                '\\' => text.push(match self.0.next()? {
                    'n' => '\n',
                    'r' => '\r',
                    't' => '\t',
                    'u' => char::from_u32(u32::from_str_radix(&self.0.by_ref().take(4).collect::<String>(), 16).ok()?)?,
                    other => other,
                }),
                other => text.push(other),
            }
        }
    }
    fn value(&mut self) -> Option<Json> {
        if self.0.peek()? == &'"' {
            return self.text().map(Json::Text);
        }
        if self.0.next_if_eq(&'[').is_some() {
            let mut list = Vec::new();
            while self.0.next_if_eq(&']').is_none() {
                list.push(self.text()?);
                self.0.next_if_eq(&',');
            }
            return Some(Json::List(list));
        }
        let mut digits = String::new();
        while let Some(it) = self.0.next_if(char::is_ascii_digit) {
            digits.push(it);
        }
        digits.parse().ok().map(Json::Number)
    }
    pub fn object(&mut self) -> Option<HashMap<String, Json>> {
        let mut members = HashMap::new();
        self.0.next_if_eq(&'{')?;
        while self.0.next_if_eq(&'}').is_none() {
            let name = self.text()?;
            self.0.next_if_eq(&':')?;
            members.insert(name, self.value()?);
            self.0.next_if_eq(&',');
        }
        Some(members)
    }
}

pub fn quoted(text: &str) -> String {
    let mut made = String::from("\"");
    for it in text.chars() {
        match it {
            '"' | '\\' => made.extend(['\\', it]),
            '\n' => made.push_str("\\n"),
            other => made.push(other),
        }
    }
    made + "\""
}

pub fn listed<T>(items: &[T], each: impl Fn(&T) -> String) -> String {
    format!("[{}]", items.iter().map(each).collect::<Vec<_>>().join(","))
}

// ---- forms

pub fn is_address(text: &str) -> bool {
    let Some((local, domain)) = text.rsplit_once('@') else { return false };
    let is_name = |it: u8| it.is_ascii_alphanumeric() || it == b'-' || it == b'_';
    let is_local = |it: u8| it.is_ascii_graphic() && !b"\"\\<>(),;@".contains(&it);
    text.len() <= 254 && !local.is_empty() && local.bytes().all(is_local)
        && domain.split('.').all(|it| !it.is_empty() && it.bytes().all(is_name))
}

pub fn is_name(text: &str) -> bool {
    (1..=64).contains(&text.len()) && text.bytes().all(|it| it.is_ascii_alphanumeric() || b"._-".contains(&it))
}

pub fn is_action(text: &str) -> bool {
    let verb = text.split(' ').next().unwrap_or("").to_ascii_uppercase();
    ["OK", "REJECT", "DEFER", "DUNNO", "DISCARD", "HOLD", "REDIRECT"].contains(&verb.as_str())
}

/// What is looked for, for an address, the most specific first.
pub fn keys_of(address: &str) -> Vec<String> {
    let address = address.to_ascii_lowercase();
    let Some((local, domain)) = address.rsplit_once('@') else { return vec!["<>".into()] };
    let mut names = vec![local];
    names.extend(local.split_once('+').filter(|it| !it.0.is_empty()).map(|it| it.0));
    let mut keys: Vec<String> = names.iter().map(|it| format!("{it}@{domain}")).collect();
    keys.push(domain.into());
    keys.extend(domain.match_indices('.').map(|(at, _)| domain[at..].into()));
    keys.extend(names.iter().map(|it| format!("{it}@")));
    keys
}

/// The moment, as a mail has it.
pub fn date(at: i64) -> String {
    let (days, rest) = (at / 86400, at % 86400);
    // (days since 0000-03-01, in eras of 400 years; as in Howard Hinnant's `civil_from_days`)
    let shifted = days + 719_468;
    let (era, day) = (shifted / 146_097, shifted % 146_097);
    let of_era = (day - day / 1460 + day / 36_524 - day / 146_096) / 365;
    let of_year = day - (365 * of_era + of_era / 4 - of_era / 100);
    let month = (5 * of_year + 2) / 153;
    let (day, month) = (of_year - (153 * month + 2) / 5 + 1, (month + 2) % 12);
    let year = of_era + era * 400 + (month < 2) as i64;
    let names = ["Jan", "Feb", "Mar", "Apr", "May", "Jun", "Jul", "Aug", "Sep", "Oct", "Nov", "Dec"];
    let week = ["Thu", "Fri", "Sat", "Sun", "Mon", "Tue", "Wed"];
    format!("{}, {day:02} {} {year} {:02}:{:02}:{:02} +0000", week[(days % 7) as usize], names[month as usize],
        rest / 3600, rest / 60 % 60, rest % 60)
}

// ---- calls

/// The reply of a call, or the number of its refusal.
pub type Told = Result<String, u32>;
pub type Asked = HashMap<String, Json>;

pub fn refuse_if(holds: bool, number: u32) -> Result<(), u32> {
    if holds { Err(number) } else { Ok(()) }
}

pub fn text_in<'a>(asked: &'a Asked, name: &str) -> Result<&'a str, u32> {
    if let Some(Json::Text(it)) = asked.get(name) { Ok(it) } else { Err(8) }
}

pub fn changed(count: i64) -> Told {
    Ok(format!("{{\"changed\":{count}}}"))
}

/// A message as lists and reports have it.
pub struct Entry {
    pub serial: i64,
    pub sender: String,
    pub size: i64,
    pub arrival: i64,
    pub state: i64,
    pub reason: String,
    pub count: i64,
}

/// A customer, by its row of the directory: its name, and the most messages, bytes and lines that it may keep.
pub struct Customer {
    pub name: String,
    pub most: [i64; 3],
}
