//! A row of the personnel file, and the SCIM user that it asks for.
use serde::{Deserialize, Serialize};
use std::num::NonZeroU64;

const CORE: &str = "urn:ietf:params:scim:schemas:core:2.0:User";
const SOURCE: &str = "urn:example:params:scim:schemas:extension:source:1.0";

#[derive(Clone, Copy, PartialEq, Deserialize)]
#[serde(rename_all = "lowercase")]
pub enum Status {
    Active,
    Left,
}

#[derive(Deserialize)]
pub struct Row<'a> {
    pub login: &'a str,
    pub revision: NonZeroU64,
    pub number: &'a str,
    pub given: &'a str,
    pub family: &'a str,
    pub mail: &'a str,
    pub status: Status,
}

#[derive(Serialize)]
struct Email<'a> {
    primary: bool,
    #[serde(rename = "type")]
    kind: &'static str,
    value: &'a str,
}

fn is_empty(text: &&str) -> bool {
    text.is_empty()
}

#[derive(Serialize)]
#[serde(rename_all = "camelCase")]
struct Name<'a> {
    #[serde(skip_serializing_if = "is_empty")]
    family_name: &'a str,
    #[serde(skip_serializing_if = "is_empty")]
    given_name: &'a str,
}

#[derive(Serialize)]
struct Source {
    revision: NonZeroU64,
}

/// The members are in the order of their names.
#[derive(Serialize)]
#[serde(rename_all = "camelCase")]
pub struct User<'a> {
    active: bool,
    #[serde(skip_serializing_if = "Option::is_none")]
    emails: Option<[Email<'a>; 1]>,
    #[serde(skip_serializing_if = "is_empty")]
    external_id: &'a str,
    #[serde(skip_serializing_if = "Option::is_none")]
    name: Option<Name<'a>>,
    schemas: [&'static str; 2],
    #[serde(rename = "urn:example:params:scim:schemas:extension:source:1.0")]
    source: Source,
    user_name: &'a str,
}

impl<'a> From<&Row<'a>> for User<'a> {
    fn from(row: &Row<'a>) -> Self {
        let email = Email { primary: true, kind: "work", value: row.mail };
        let name = Name { family_name: row.family, given_name: row.given };
        User {
            active: row.status == Status::Active,
            emails: (!row.mail.is_empty()).then_some([email]),
            external_id: row.number,
            name: (!row.given.is_empty() || !row.family.is_empty()).then_some(name),
            schemas: [CORE, SOURCE],
            source: Source { revision: row.revision },
            user_name: row.login,
        }
    }
}
