//! Answers, and their bodies as JSON.
use super::rows::Row;
use super::user::{Meta, User};
use super::Result;
use serde::Serialize;
use serde_json::json;

const BASE: &str = "http://localhost:8080/v2/Users/";
/// What ids begin with. A number of twelve hexadecimal digits follows.
pub const IDS: &str = "5c1a0000-0000-8000-8000-";

pub struct Answer {
    pub status: u16,
    pub body: String,
    /// The location and the version of the user that is shown.
    pub shown: Option<(String, String)>,
}

#[derive(Serialize)]
#[serde(rename_all = "camelCase")]
struct List {
    #[serde(rename = "Resources")]
    resources: Vec<User>,
    items_per_page: usize,
    schemas: [&'static str; 1],
    start_index: usize,
    total_results: usize,
}

pub fn fault(status: u16, kind: Option<&str>, detail: &str) -> Result<Answer> {
    let schema = "urn:ietf:params:scim:api:messages:2.0:Error";
    let mut body = json!({"detail": detail, "schemas": [schema], "status": status.to_string()});
    if let Some(kind) = kind {
        body["scimType"] = kind.into();
    }
    Ok(Answer { status, body: body.to_string(), shown: None })
}

/// The user of a row with its id and its version.
fn shown(row: Row) -> User {
    let id = format!("{IDS}{:012x}", row.number);
    let (location, version) = (format!("{BASE}{id}"), format!("\"{}\"", row.version));
    let mut user = row.user;
    user.id = Some(id);
    user.meta = Some(Meta { location, resource_type: "User", version });
    user
}

pub fn show(status: u16, row: Row) -> Result<Answer> {
    let user = shown(row);
    let body = serde_json::to_string(&user)?;
    Ok(Answer { status, body, shown: user.meta.map(|meta| (meta.location, meta.version)) })
}

/// Some of all users that were found.
pub fn list(start: usize, total: usize, rows: impl Iterator<Item = Row>) -> Result<Answer> {
    let resources: Vec<User> = rows.map(shown).collect();
    let (items_per_page, schemas) = (resources.len(), ["urn:ietf:params:scim:api:messages:2.0:ListResponse"]);
    let list = List { resources, items_per_page, schemas, start_index: start, total_results: total };
    Ok(Answer { status: 200, body: serde_json::to_string(&list)?, shown: None })
}
