//! A plain desk to compare with, as plain_desk.py, compiled and over the C library of SQLite: plain_desk DIRECTORY [STORE]
//! < LINES. Nothing of it is proved. It is built by
//! `rustc --edition 2021 -O -C link-arg=-l:libsqlite3.so.0 bench/plain_desk.rs`, keeps the text of an import in the place of
//! its digest, reads files of imports whose fields are not quoted, and tells refusals by their number alone.
use std::collections::HashMap;
use std::io::{BufRead, Write as _};

mod plain_parts;
use plain_parts::*;

const RELAY: &str = "relaykey00000001";
const STATES: [&str; 3] = ["incoming", "deferred", "hold"];
/// The tables of plain_desk.py.
const PLAIN: &str = include_str!("plain_desk.py");

struct Desk {
    base: Base,
    customers: HashMap<String, Customer>,
    keys: HashMap<String, String>,
}

impl Desk {
    /// The customer's next queue ID, messages, bytes and lines.
    fn head(&self, name: &str) -> [i64; 4] {
        let found = self.base.rows("SELECT next_serial, messages, bytes, lines FROM heads WHERE customer = ?", &[T(name)],
            |row| [0, 1, 2, 3].map(|at| row.number(at)));
        found.first().copied().unwrap_or([1, 0, 0, 0])
    }

    /// Adds to the customer's queue IDs, accepted and deleted recipients, messages, bytes and lines.
    fn count(&self, name: &str, more: [i64; 6]) {
        self.base.change("INSERT INTO heads VALUES (?, 1, 1, 0, 0, 0, 0, 0, 0, 0, 0) ON CONFLICT DO NOTHING", &[T(name)]);
        let [serials, accepted, deleted, messages, bytes, lines] = more.map(N);
        self.base.change("UPDATE heads SET next_serial = next_serial + ?, accepted = accepted + ?, deleted = deleted + ?, \
            messages = messages + ?, bytes = bytes + ?, lines = lines + ? WHERE customer = ?",
            &[serials, accepted, deleted, messages, bytes, lines, T(name)]);
    }

    /// The first key of an address that has a line, and its action.
    fn found(&self, name: &str, class: &str, keys: &[String]) -> Option<(String, String)> {
        let text = "SELECT action FROM lines WHERE customer = ? AND class = ? AND pattern = ?";
        keys.iter().find_map(|key| {
            let found = self.base.rows(text, &[T(name), T(class), T(key)], |row| row.text(0));
            found.into_iter().next().map(|action| (key.clone(), action))
        })
    }

    fn submit(&self, customer: &Customer, at: i64, asked: &Asked) -> Told {
        let (name, spool, sender) = (&*customer.name, text_in(asked, "spool")?, text_in(asked, "sender")?);
        let (Some(Json::List(recipients)), Some(Json::Number(size))) = (asked.get("recipients"), asked.get("size"))
            else { return Err(8) };
        refuse_if(!is_name(spool), 23)?;
        refuse_if(!(sender.is_empty() || is_address(sender)) || !recipients.iter().all(|it| is_address(it)), 20)?;
        let again = self.base.rows("SELECT serial FROM messages WHERE customer = ? AND spool = ?", &[T(name), T(spool)],
            |row| row.number(0));
        if let Some(serial) = again.first() {
            return Ok(format!("{{\"id\":\"{serial:010X}\",\"verdict\":\"repeat\"}}"));
        }
        let [serial, messages, bytes, lines] = self.head(name);
        let action = |class: &str, it: &str| -> (String, String) {
            let found = if lines > 0 { self.found(name, class, &keys_of(it)) } else { None };
            let (_, action) = found.unwrap_or_default();
            action.split_once(' ').map_or((action.clone(), String::new()), |(verb, text)| (verb.into(), text.into()))
        };
        let refusal = |it: &str, by: &(String, String)| {
            let (code, plain) = match &*by.0 {
                "REJECT" => (554, "Access denied"),
                "DEFER" => (450, "Try again later"),
                _ => return None,
            };
            let text = quoted(if by.1.is_empty() { plain } else { &by.1 });
            Some(format!("{{\"address\":{},\"code\":{code},\"text\":{text}}}", quoted(it)))
        };
        let (mut refused, mut kept, mut seen) = (Vec::new(), Vec::<String>::new(), vec![action("sender", sender)]);
        let rejected = |all: &[String]| Ok(format!("{{\"refused\":[{}],\"verdict\":\"rejected\"}}", all.join(",")));
        if let Some(it) = refusal(sender, &seen[0]) {
            return rejected(&[it]);
        }
        for (place, it) in recipients.iter().enumerate() {
            if recipients[..place].iter().any(|other| other.eq_ignore_ascii_case(it)) {
                continue;
            }
            let by = action("recipient", it);
            match refusal(it, &by) {
                Some(it) => refused.push(it),
                None => { kept.push(it.clone()); seen.push(by) }
            }
        }
        if kept.is_empty() {
            return rejected(&refused);
        }
        let refused = refused.join(",");
        if seen.iter().any(|it| it.0 == "DISCARD") {
            return Ok(format!("{{\"refused\":[{refused}],\"verdict\":\"discarded\"}}"));
        }
        if let Some((_, to)) = seen.iter().rfind(|it| it.0 == "REDIRECT") {
            kept = vec![to.clone()];
        }
        let reason = seen.iter().find(|it| it.0 == "HOLD");
        let reason = reason.map(|it| if it.1.is_empty() { "held by access table" } else { &*it.1 });
        refuse_if(messages >= customer.most[0], 40)?;
        refuse_if(bytes + size > customer.most[1], 41)?;
        let state = if reason.is_some() { 2 } else { 0 };
        self.base.change("INSERT INTO messages VALUES (?, ?, ?, ?, ?, ?, ?, ?, 0, 0)",
            &[T(name), N(serial), T(sender), T(spool), N(*size), N(at), N(state), N(at)]);
        for (place, it) in (0..).zip(&kept) {
            let text = "INSERT INTO recipients VALUES (?, ?, ?, ?, '', '')";
            self.base.change(text, &[T(name), N(serial), N(place), T(it)]);
        }
        if let Some(reason) = reason {
            self.base.change("INSERT INTO holds VALUES (?, ?, ?)", &[T(name), N(serial), T(reason)]);
        }
        self.count(name, [1, kept.len() as i64, 0, 1, *size, 0]);
        let (kept, state) = (listed(&kept, |it| quoted(it)), STATES[state as usize]);
        Ok(format!("{{\"id\":\"{serial:010X}\",\"recipients\":{kept},\"refused\":[{refused}],\"state\":\"{state}\",\
            \"verdict\":\"queued\"}}"))
    }

    fn state(&self, name: &str, serial: i64) -> Result<i64, u32> {
        let text = "SELECT state FROM messages WHERE customer = ? AND serial = ?";
        self.base.rows(text, &[T(name), N(serial)], |row| row.number(0)).first().copied().ok_or(10)
    }

    fn hold(&self, name: &str, serial: i64) -> Told {
        if self.state(name, serial)? == 2 {
            return changed(0);
        }
        self.base.change("UPDATE messages SET state = 2 WHERE customer = ? AND serial = ?", &[T(name), N(serial)]);
        self.base.change("INSERT INTO holds VALUES (?, ?, 'held by customer')", &[T(name), N(serial)]);
        changed(1)
    }

    fn release(&self, name: &str, serial: i64, at: i64) -> Told {
        if self.state(name, serial)? != 2 {
            return changed(0);
        }
        let text = "UPDATE messages SET state = 1, next_try = ? WHERE customer = ? AND serial = ?";
        self.base.change(text, &[N(at), T(name), N(serial)]);
        self.base.change("DELETE FROM holds WHERE customer = ? AND serial = ?", &[T(name), N(serial)]);
        changed(1)
    }

    fn hold_all(&self, name: &str) -> Told {
        self.base.change("INSERT INTO holds SELECT customer, serial, 'held by customer' FROM messages \
            WHERE customer = ? AND state <> 2", &[T(name)]);
        changed(self.base.change("UPDATE messages SET state = 2 WHERE customer = ? AND state <> 2", &[T(name)]))
    }

    fn release_all(&self, name: &str, at: i64) -> Told {
        self.base.change("DELETE FROM holds WHERE customer = ?", &[T(name)]);
        let text = "UPDATE messages SET state = 1, next_try = ? WHERE customer = ? AND state = 2";
        changed(self.base.change(text, &[N(at), T(name)]))
    }

    fn delete(&self, name: &str, serial: i64) -> Told {
        let size = self.base.rows("SELECT size FROM messages WHERE customer = ? AND serial = ?", &[T(name), N(serial)],
            |row| row.number(0)).first().copied().ok_or(10u32)?;
        self.base.change("DELETE FROM messages WHERE customer = ? AND serial = ?", &[T(name), N(serial)]);
        let gone = self.base.change("DELETE FROM recipients WHERE customer = ? AND serial = ?", &[T(name), N(serial)]);
        self.base.change("DELETE FROM holds WHERE customer = ? AND serial = ?", &[T(name), N(serial)]);
        self.count(name, [0, 0, gone, -1, -size, 0]);
        changed(1)
    }

    fn check(&self, name: &str, asked: &Asked) -> Told {
        let (class, address) = (text_in(asked, "class")?, text_in(asked, "address")?);
        refuse_if(class != "sender" && class != "recipient", 8)?;
        refuse_if(!is_address(address) && (!address.is_empty() || class == "recipient"), 20)?;
        let keys = keys_of(address);
        let (pattern, action) = match self.found(name, class, &keys) {
            Some((pattern, action)) => (quoted(&pattern), quoted(&action)),
            None => ("null".into(), "null".into()),
        };
        Ok(format!("{{\"action\":{action},\"keys\":{},\"pattern\":{pattern}}}", listed(&keys, |it| quoted(it))))
    }

    fn queue(&self, name: &str, limit: i64) -> Vec<Entry> {
        self.base.rows("SELECT serial, sender, size, arrival, state, hold_reason, (SELECT count(*) FROM recipients r WHERE \
            r.customer = m.customer AND r.serial = m.serial) FROM messages m LEFT JOIN holds USING (customer, serial) \
            WHERE customer = ? ORDER BY serial LIMIT ?", &[T(name), N(limit)], |row| Entry {
                serial: row.number(0), sender: row.text(1), size: row.number(2), arrival: row.number(3),
                state: row.number(4), reason: row.text(5), count: row.number(6),
            })
    }

    fn list(&self, name: &str) -> Told {
        let rows = self.queue(name, 101);
        let entries = listed(&rows[..rows.len().min(100)], |it| format!("{{\"arrival\":{},\"id\":\"{:010X}\",\
            \"reason\":{},\"recipients\":{},\"sender\":{},\"size\":{},\"state\":\"{}\"}}", it.arrival, it.serial,
            quoted(&it.reason), it.count, quoted(&it.sender), it.size, STATES[it.state as usize]));
        Ok(format!("{{\"messages\":{entries},\"more\":{}}}", rows.len() > 100))
    }

    fn report(&self, name: &str) -> Told {
        let rows = self.queue(name, -1);
        let mut recipients = self.base.rows("SELECT serial, address, status, reason FROM recipients WHERE customer = ? \
            ORDER BY serial, place", &[T(name)], |row| (row.number(0), row.text(1), row.text(2), row.text(3)))
            .into_iter().peekable();
        let mut told = String::from("Queue ID          Size Arrival                         Sender/Recipient\n");
        for it in &rows {
            let sender = if it.sender.is_empty() { "MAILER-DAEMON" } else { &it.sender };
            let mark = if it.state == 2 { '!' } else { ' ' };
            told += &format!("{:010X}{mark}{:>11} {} {sender}\n", it.serial, it.size, date(it.arrival));
            if !it.reason.is_empty() {
                told += &format!("    (hold: {})\n", it.reason);
            }
            while let Some((_, address, status, text)) = recipients.next_if(|other| other.0 == it.serial) {
                if !status.is_empty() {
                    told += &format!("    ({status} {text})\n");
                }
                told += &format!("    {address}\n");
            }
        }
        let bytes: i64 = rows.iter().map(|it| it.size).sum();
        let held = rows.iter().filter(|it| it.state == 2).count();
        told += &format!("-- {} queued, {bytes} bytes, {held} on hold\n", rows.len());
        Ok(format!("{{\"report\":{}}}", quoted(if rows.is_empty() { "Mail queue is empty\n" } else { &told })))
    }

    fn load(&self, customer: &Customer, asked: &Asked) -> Told {
        let (name, label, text) = (&*customer.name, text_in(asked, "label")?, text_in(asked, "csv")?);
        refuse_if(!is_name(label), 27)?;
        let told = |[a, c, s]: [i64; 3]| Ok(format!("{{\"added\":{a},\"changed\":{c},\"same\":{s}}}"));
        let mark = self.base.rows("SELECT digest, added, changed, same FROM marks WHERE customer = ? AND label = ?",
            &[T(name), T(label)], |row| (row.text(0), [1, 2, 3].map(|at| row.number(at))));
        if let Some((kept, counts)) = mark.first() {
            refuse_if(kept != text, 52)?;
            return told(*counts);
        }
        let (mut rows, mut counts) = (text.lines().filter(|it| !it.is_empty()), [0; 3]);
        refuse_if(rows.next() != Some("class,pattern,action"), 50)?;
        for row in rows {
            let [class, pattern, action] = row.splitn(3, ',').collect::<Vec<_>>().try_into().map_err(|_| 50u32)?;
            refuse_if((class != "sender" && class != "recipient") || !is_action(action), 50)?;
            let pattern = pattern.to_ascii_lowercase();
            let was = self.base.rows("SELECT action FROM lines WHERE customer = ? AND class = ? AND pattern = ?",
                &[T(name), T(class), T(&pattern)], |row| row.text(0));
            counts[was.first().map_or(0, |it| 1 + (it == action) as usize)] += 1;
            let text = "INSERT OR REPLACE INTO lines VALUES (?, ?, ?, ?)";
            self.base.change(text, &[T(name), T(class), T(&pattern), T(action)]);
        }
        refuse_if(self.head(name)[3] + counts[0] > customer.most[2], 42)?;
        self.base.change("INSERT INTO marks VALUES (?, ?, CAST(? AS BLOB), ?, ?, ?)",
            &[T(name), T(label), T(text), N(counts[0]), N(counts[1]), N(counts[2])]);
        self.count(name, [0, 0, 0, 0, 0, counts[0]]);
        told(counts)
    }

    fn call(&self, line: &str) -> Told {
        let mut fields = line.splitn(5, ' ');
        let (Some(at), Some(_), Some(path), Some(key)) = (fields.next(), fields.next(), fields.next(), fields.next())
            else { return Err(1) };
        let (at, body) = (at.parse().map_err(|_| 1u32)?, fields.next().unwrap_or(""));
        let asked = || Reader(body.chars().peekable()).object().ok_or(8u32);
        if let Some(name) = path.strip_prefix("/relay/submit/") {
            refuse_if(key != RELAY, if self.keys.contains_key(key) { 3 } else { 2 })?;
            return self.submit(self.customers.get(name).ok_or(13u32)?, at, &asked()?);
        }
        let customer = &self.customers[self.keys.get(key).ok_or(2u32)?];
        let (word, id) = path.strip_prefix("/v1/").ok_or(4u32)?.split_once('/').unwrap_or((&path[4..], "0"));
        let (name, serial) = (&*customer.name, i64::from_str_radix(id, 16).map_err(|_| 8u32)?);
        match word {
            "messages" => self.list(name),
            "report" => self.report(name),
            "hold" => self.hold(name, serial),
            "release" => self.release(name, serial, at),
            "hold-all" => self.hold_all(name),
            "release-all" => self.release_all(name, at),
            "message" => self.delete(name, serial),
            "check" => self.check(name, &asked()?),
            "import" => self.load(customer, &asked()?),
            _ => Err(4),
        }
    }
}

fn main() {
    let words: Vec<String> = std::env::args().collect();
    let (mut customers, mut keys) = (HashMap::new(), HashMap::new());
    for row in std::fs::read_to_string(&words[1]).unwrap().lines().skip(1) {
        let row: Vec<&str> = row.split(',').collect();
        let most = [2, 3, 4].map(|at: usize| row[at].parse().unwrap());
        keys.insert(row[1].to_string(), row[0].to_string());
        customers.insert(row[0].to_string(), Customer { name: row[0].into(), most });
    }
    let base = Base::open(words.get(2).map_or(":memory:", |it| it));
    base.script("PRAGMA journal_mode = WAL; PRAGMA synchronous = FULL;");
    base.script(PLAIN.split("\"\"\"").nth(3).unwrap());
    let desk = Desk { base, customers, keys };
    for line in std::io::stdin().lock().lines() {
        desk.base.change("BEGIN", &[]);
        let told = desk.call(&line.unwrap());
        desk.base.change(if told.is_ok() { "COMMIT" } else { "ROLLBACK" }, &[]);
        let told = told.map_or_else(|number| format!("400 {{\"error\":{number}}}"), |it| format!("200 {it}"));
        let mut output = std::io::stdout().lock();
        writeln!(output, "{told}").and_then(|_| output.flush()).unwrap();
    }
}
