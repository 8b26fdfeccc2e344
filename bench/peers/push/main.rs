//! The work of `scimlink push` by rusqlite and std's TcpStream: `push USERS JOURNAL HOST:PORT [THREADS]`.
//!
//! The rows of the file are one commit of the journal. Then each record that isn't confirmed is looked for by
//! its name, and created or replaced, each over a connection of its own. What is confirmed is a commit of its
//! own and then a line. Several threads take records in their order, and print lines as they come.
use csv::{Reader, StringRecord};
use rusqlite::{params, Connection};
use serde::Deserialize;
use std::error::Error;
use std::io::{Read, Write};
use std::net::{TcpStream, ToSocketAddrs};
use std::sync::atomic::{AtomicUsize, Ordering};
use std::sync::Mutex;
use std::thread;
use std::time::Duration;

#[path = "../image.rs"]
mod image;
use image::{Row, User};

type Result<T> = std::result::Result<T, Box<dyn Error + Send + Sync>>;

const TIME_LIMIT: Duration = Duration::from_secs(30);
const OPEN: &str = "PRAGMA journal_mode = WAL; PRAGMA synchronous = FULL;
    CREATE TABLE IF NOT EXISTS entry (name_key TEXT PRIMARY KEY NOT NULL, login TEXT NOT NULL,
    revision INTEGER NOT NULL, content TEXT NOT NULL, confirmed INTEGER NOT NULL, id TEXT)";
const OFFER: &str = "INSERT INTO entry VALUES (?1, ?2, ?3, ?4, 0, NULL) ON CONFLICT (name_key)
    DO UPDATE SET login = ?2, revision = ?3, content = ?4 WHERE revision < ?3";
const WANTED: &str = "SELECT name_key, login, revision, content FROM entry WHERE confirmed < revision
    ORDER BY name_key";
const CONFIRM: &str = "UPDATE entry SET confirmed = ?2, id = ?3 WHERE name_key = ?1";

/// A record of the journal that isn't confirmed.
struct Entry {
    key: String,
    login: String,
    revision: u64,
    content: String,
}

/// A user as the provider shows it.
#[derive(Deserialize)]
struct Shown {
    id: String,
    meta: Meta,
    #[serde(rename = "urn:example:params:scim:schemas:extension:source:1.0")]
    source: Option<Source>,
}

#[derive(Deserialize)]
struct Meta {
    version: String,
}

#[derive(Deserialize)]
struct Source {
    revision: u64,
}

#[derive(Deserialize)]
struct List {
    #[serde(rename = "Resources")]
    resources: Vec<Shown>,
}

/// One request and its answer: the status, and the body.
fn exchange(to: &str, method: &str, target: &str, condition: &str, body: &str) -> Result<(u16, String)> {
    let mut request = format!("{method} {target} HTTP/1.1\r\nHost: localhost:8080\r\n");
    request += "Accept: application/scim+json\r\nConnection: close\r\n";
    if !body.is_empty() {
        let length = body.len();
        request += &format!("Content-Length: {length}\r\nContent-Type: application/scim+json\r\n{condition}");
    }
    let address = to.to_socket_addrs()?.next().ok_or("the host has no address")?;
    let mut stream = TcpStream::connect_timeout(&address, TIME_LIMIT)?;
    stream.set_read_timeout(Some(TIME_LIMIT))?;
    stream.write_all(format!("{request}\r\n{body}").as_bytes())?;
    let mut answer = String::new();
    stream.read_to_string(&mut answer)?;
    let (head, body) = answer.split_once("\r\n\r\n").ok_or("the answer is cut")?;
    let status = head.split(' ').nth(1).ok_or("the answer has no status")?;
    Ok((status.parse()?, body.to_owned()))
}

/// Looks for a record, and creates or replaces it if need be: the user that the provider shows then.
fn carry(to: &str, entry: &Entry) -> Result<Shown> {
    let login = entry.login.replace('%', "%25").replace('&', "%26").replace('+', "%2B").replace('#', "%23");
    let target = format!("/v2/Users?filter=userName+eq+%22{login}%22");
    let (status, body) = exchange(to, "GET", &target, "", "")?;
    if status != 200 {
        return Err(format!("status {status}").into());
    }
    let found = serde_json::from_str::<List>(&body)?.resources.pop();
    let (status, body) = match found {
        Some(user) if user.source.as_ref().map_or(0, |it| it.revision) >= entry.revision => return Ok(user),
        Some(user) => {
            let condition = format!("If-Match: {}\r\n", user.meta.version);
            exchange(to, "PUT", &format!("/v2/Users/{}", user.id), &condition, &entry.content)?
        }
        None => exchange(to, "POST", "/v2/Users", "", &entry.content)?,
    };
    match status {
        200 | 201 => Ok(serde_json::from_str(&body)?),
        _ => Err(format!("status {status}").into()),
    }
}

/// Saves the rows of the file, in one commit.
fn offer(journal: &mut Connection, path: &str) -> Result<()> {
    let mut reader = Reader::from_path(path)?;
    let header = reader.headers()?.clone();
    let mut record = StringRecord::new();
    let commit = journal.transaction()?;
    let mut statement = commit.prepare(OFFER)?;
    while reader.read_record(&mut record)? {
        let row: Row = record.deserialize(Some(&header))?;
        let content = serde_json::to_string(&User::from(&row))?;
        statement.execute(params![row.login.to_lowercase(), row.login, row.revision.get(), content])?;
    }
    drop(statement);
    Ok(commit.commit()?)
}

/// The records that aren't confirmed.
fn wanted(journal: &Connection) -> Result<Vec<Entry>> {
    let mut statement = journal.prepare(WANTED)?;
    let entries = statement.query_map([], |row| {
        Ok(Entry { key: row.get(0)?, login: row.get(1)?, revision: row.get(2)?, content: row.get(3)? })
    })?;
    Ok(entries.collect::<rusqlite::Result<_>>()?)
}

/// Carries a record: its line.
fn push(journal: &Mutex<Connection>, to: &str, entry: &Entry) -> Result<String> {
    match carry(to, entry) {
        Ok(user) => {
            let journal = journal.lock().map_err(|_| "a thread failed")?;
            journal.prepare_cached(CONFIRM)?.execute(params![entry.key, entry.revision, user.id])?;
            Ok(format!("user {} confirmed {}", entry.key, entry.revision))
        }
        Err(error) => Ok(format!("user {} unconfirmed {error}", entry.key)),
    }
}

fn main() -> Result<()> {
    let words: Vec<String> = std::env::args().collect();
    let (users, journal, to, threads) = match &words[..] {
        [_, users, journal, to] => (users, journal, to, 1),
        [_, users, journal, to, threads] => (users, journal, to, threads.parse()?),
        _ => return Err("push USERS JOURNAL HOST:PORT [THREADS]".into()),
    };
    let mut journal = Connection::open(journal)?;
    journal.execute_batch(OPEN)?;
    offer(&mut journal, users)?;
    let (entries, next, journal) = (wanted(&journal)?, AtomicUsize::new(0), Mutex::new(journal));
    let work = || -> Result<()> {
        while let Some(entry) = entries.get(next.fetch_add(1, Ordering::Relaxed)) {
            println!("{}", push(&journal, to, entry)?);
        }
        Ok(())
    };
    thread::scope(|scope| {
        let workers: Vec<_> = (0..threads).map(|_| scope.spawn(work)).collect();
        workers.into_iter().try_for_each(|it| it.join().map_err(|_| "a thread failed")?)
    })
}
