//! The work of `scimlink serve` by std's TcpListener, in one thread: `serve [STORE]`. It prints the address on
//! which it listens, and serves one request a connection until it is killed.
use std::error::Error;
use std::io::{Read, Write};
use std::net::{TcpListener, TcpStream};
use std::time::Duration;

#[path = "../provider/mod.rs"]
mod provider;
use provider::{Answer, Provider, Request, Rows};

type Result<T> = std::result::Result<T, Box<dyn Error>>;

const TIME_LIMIT: Duration = Duration::from_secs(30);
const MOST_FIELDS: usize = 64;
const MOST_BYTES: usize = 16_384 + 1_048_576;

fn phrase(status: u16) -> &'static str {
    match status {
        200 => "OK",
        201 => "Created",
        400 => "Bad Request",
        404 => "Not Found",
        409 => "Conflict",
        412 => "Precondition Failed",
        501 => "Not Implemented",
        _ => "Internal Server Error",
    }
}

fn text_of(answer: &Answer) -> String {
    let mut text = format!("HTTP/1.1 {} {}\r\nConnection: close\r\n", answer.status, phrase(answer.status));
    text += &format!("Content-Length: {}\r\n", answer.body.len());
    if let Some((location, _)) = &answer.shown {
        text += &format!("Content-Location: {location}\r\n");
    }
    text += "Content-Type: application/scim+json\r\n";
    if let Some((location, version)) = &answer.shown {
        text += &format!("ETag: {version}\r\n");
        if answer.status == 201 {
            text += &format!("Location: {location}\r\n");
        }
    }
    text + "\r\n" + &answer.body
}

/// The answer to a request, if these bytes are a whole one.
fn answer(provider: &mut Provider, bytes: &[u8]) -> Result<Option<Answer>> {
    let mut fields = [httparse::EMPTY_HEADER; MOST_FIELDS];
    let mut head = httparse::Request::new(&mut fields);
    let httparse::Status::Complete(start) = head.parse(bytes)? else { return Ok(None) };
    let field = |name: &str| {
        let found = head.headers.iter().find(|field| field.name.eq_ignore_ascii_case(name));
        found.map(|field| std::str::from_utf8(field.value)).transpose()
    };
    let length = field("Content-Length")?.map_or(Ok(0), str::parse::<usize>)?;
    let Some(body) = bytes[start..].get(..length) else { return Ok(None) };
    let (method, target) = (head.method.unwrap_or_default(), head.path.unwrap_or_default());
    let if_match = field("If-Match")?;
    Ok(Some(provider.answer(&Request { method, target, if_match, body })))
}

fn serve(provider: &mut Provider, mut stream: TcpStream) -> Result<()> {
    stream.set_read_timeout(Some(TIME_LIMIT))?;
    stream.set_write_timeout(Some(TIME_LIMIT))?;
    let (mut taken, mut room) = (Vec::new(), [0; 8192]);
    while taken.len() < MOST_BYTES {
        let got = stream.read(&mut room)?;
        if got == 0 {
            return Err("the request is cut".into());
        }
        taken.extend_from_slice(&room[..got]);
        if let Some(answer) = answer(provider, &taken)? {
            return Ok(stream.write_all(text_of(&answer).as_bytes())?);
        }
    }
    Err("the request is too long".into())
}

fn main() -> Result<()> {
    let store = std::env::args().nth(1);
    let rows = store.map_or(Ok(Rows::in_memory()), |path| Rows::open(&path))?;
    let mut provider = Provider { rows };
    let listener = TcpListener::bind("127.0.0.1:0")?;
    println!("listening {}", listener.local_addr()?);
    for stream in listener.incoming() {
        if let Err(error) = stream.map_err(Into::into).and_then(|stream| serve(&mut provider, stream)) {
            eprintln!("{error}");
        }
    }
    Ok(())
}
