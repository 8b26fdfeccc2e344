//! A SCIM user, with its members in the order of their names.
use serde::{Deserialize, Serialize};

const CORE: &str = "urn:ietf:params:scim:schemas:core:2.0:User";
const SOURCE: &str = "urn:example:params:scim:schemas:extension:source:1.0";

fn yes() -> bool {
    true
}

#[derive(Clone, Serialize, Deserialize)]
#[serde(rename_all = "camelCase")]
pub struct User {
    #[serde(default = "yes")]
    active: bool,
    #[serde(default, skip_serializing_if = "Vec::is_empty")]
    emails: Vec<Email>,
    #[serde(skip_serializing_if = "Option::is_none")]
    external_id: Option<String>,
    #[serde(skip_deserializing, skip_serializing_if = "Option::is_none")]
    pub id: Option<String>,
    #[serde(skip_deserializing, skip_serializing_if = "Option::is_none")]
    pub meta: Option<Meta>,
    #[serde(skip_serializing_if = "Option::is_none")]
    name: Option<Name>,
    schemas: Vec<String>,
    #[serde(
        rename = "urn:example:params:scim:schemas:extension:source:1.0",
        skip_serializing_if = "Option::is_none"
    )]
    source: Option<Source>,
    user_name: String,
}

#[derive(Clone, Serialize, Deserialize)]
struct Email {
    #[serde(default, skip_serializing_if = "std::ops::Not::not")]
    primary: bool,
    #[serde(rename = "type", skip_serializing_if = "Option::is_none")]
    kind: Option<String>,
    value: String,
}

#[derive(Clone, Serialize)]
#[serde(rename_all = "camelCase")]
pub struct Meta {
    pub location: String,
    pub resource_type: &'static str,
    pub version: String,
}

#[derive(Clone, Serialize, Deserialize)]
#[serde(rename_all = "camelCase")]
struct Name {
    #[serde(skip_serializing_if = "Option::is_none")]
    family_name: Option<String>,
    #[serde(skip_serializing_if = "Option::is_none")]
    given_name: Option<String>,
}

#[derive(Clone, Serialize, Deserialize)]
struct Source {
    revision: u64,
}

impl User {
    /// The user that a body asks for. Its schemas become those that it uses.
    pub fn read(body: &[u8]) -> Option<User> {
        let mut user: User = serde_json::from_slice(body).ok()?;
        if user.user_name.is_empty() || !user.schemas.iter().any(|schema| schema.eq_ignore_ascii_case(CORE)) {
            return None;
        }
        user.schemas = vec![CORE.to_owned()];
        user.schemas.extend(user.source.is_some().then(|| SOURCE.to_owned()));
        Some(user)
    }

    /// Its name in small letters.
    pub fn key(&self) -> String {
        self.user_name.to_ascii_lowercase()
    }
}
