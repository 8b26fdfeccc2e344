//! The users of a provider, in memory or in a file of SQLite with the table of `scimlink serve`.
use super::user::User;
use rusqlite::{params, Connection, OptionalExtension};
use std::collections::HashMap;

const OPEN: &str = "PRAGMA journal_mode = WAL; PRAGMA synchronous = FULL;
    CREATE TABLE IF NOT EXISTS resource (number INTEGER PRIMARY KEY CHECK (number >= 1),
    kind INTEGER NOT NULL CHECK (kind = 1 OR kind = 2), name_key TEXT NOT NULL,
    version INTEGER NOT NULL CHECK (version >= 1), content TEXT NOT NULL, UNIQUE (kind, name_key))";
const BY_NUMBER: &str = "SELECT number, version, content FROM resource WHERE number = ?1";
const BY_NAME: &str = "SELECT number, version, content FROM resource WHERE kind = 1 AND name_key = ?1";
const COUNT: &str = "SELECT count(*) FROM resource";
const PAGE: &str = "SELECT number, version, content FROM resource WHERE number > ?1 ORDER BY number LIMIT ?2";
const INSERT: &str = "INSERT INTO resource (kind, name_key, version, content) VALUES (1, ?1, 1, ?2)
    ON CONFLICT DO NOTHING";
const UPDATE: &str = "UPDATE resource SET version = ?2, content = ?3 WHERE number = ?1";

type Result<T> = std::result::Result<T, Box<dyn std::error::Error>>;

#[derive(Clone)]
pub struct Row {
    pub number: usize,
    pub version: u64,
    pub user: User,
}

/// Users are numbered from 1 without a gap.
pub enum Rows {
    Memory { rows: Vec<Row>, names: HashMap<String, usize> },
    Store(Connection),
}

impl Rows {
    pub fn in_memory() -> Self {
        Rows::Memory { rows: Vec::new(), names: HashMap::new() }
    }

    /// The rows of a file. None of them is looked at.
    pub fn open(path: &str) -> Result<Self> {
        let store = Connection::open(path)?;
        store.execute_batch(OPEN)?;
        Ok(Rows::Store(store))
    }

    pub fn by_number(&self, number: usize) -> Result<Option<Row>> {
        match self {
            Rows::Memory { rows, .. } => Ok(number.checked_sub(1).and_then(|place| rows.get(place)).cloned()),
            Rows::Store(store) => one(store, BY_NUMBER, number),
        }
    }

    pub fn by_name(&self, key: &str) -> Result<Option<Row>> {
        match self {
            Rows::Memory { rows, names } => Ok(names.get(key).map(|&number| rows[number - 1].clone())),
            Rows::Store(store) => one(store, BY_NAME, key),
        }
    }

    pub fn count(&self) -> Result<usize> {
        match self {
            Rows::Memory { rows, .. } => Ok(rows.len()),
            Rows::Store(store) => Ok(store.prepare_cached(COUNT)?.query_row([], |row| row.get(0))?),
        }
    }

    /// At most so many rows after the first ones.
    pub fn page(&self, skipped: usize, most: usize) -> Result<Vec<Row>> {
        match self {
            Rows::Memory { rows, .. } => Ok(rows.iter().skip(skipped).take(most).cloned().collect()),
            Rows::Store(store) => {
                let mut statement = store.prepare_cached(PAGE)?;
                let found = statement.query_map([skipped, most], columns)?;
                found.map(|row| row_of(row?)).collect()
            }
        }
    }

    /// The new row, if the name isn't taken.
    pub fn insert(&mut self, user: User) -> Result<Option<Row>> {
        let key = user.key();
        let number = match self {
            Rows::Memory { names, .. } if names.contains_key(&key) => return Ok(None),
            Rows::Memory { rows, names } => {
                let number = rows.len() + 1;
                names.insert(key, number);
                rows.push(Row { number, version: 1, user: user.clone() });
                number
            }
            Rows::Store(store) => {
                let content = serde_json::to_string(&user)?;
                if store.prepare_cached(INSERT)?.execute(params![key, content])? == 0 {
                    return Ok(None);
                }
                store.last_insert_rowid() as usize
            }
        };
        Ok(Some(Row { number, version: 1, user }))
    }

    pub fn update(&mut self, row: &Row) -> Result<()> {
        match self {
            Rows::Memory { rows, .. } => rows[row.number - 1] = row.clone(),
            Rows::Store(store) => {
                let content = serde_json::to_string(&row.user)?;
                store.prepare_cached(UPDATE)?.execute(params![row.number, row.version, content])?;
            }
        }
        Ok(())
    }
}

/// The number, the version and the content of a row.
fn columns(row: &rusqlite::Row) -> rusqlite::Result<(usize, u64, String)> {
    Ok((row.get(0)?, row.get(1)?, row.get(2)?))
}

fn row_of((number, version, content): (usize, u64, String)) -> Result<Row> {
    Ok(Row { number, version, user: serde_json::from_str(&content)? })
}

fn one(store: &Connection, statement: &str, value: impl rusqlite::ToSql) -> Result<Option<Row>> {
    store.prepare_cached(statement)?.query_row([value], columns).optional()?.map(row_of).transpose()
}
