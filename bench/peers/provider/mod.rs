//! A provider of users: what it answers to a request.
mod answers;
mod rows;
mod user;
pub use answers::Answer;
use answers::{fault, list, show, IDS};
use rows::Row;
pub use rows::Rows;
use user::User;

pub struct Request<'a> {
    pub method: &'a str,
    pub target: &'a str,
    pub if_match: Option<&'a str>,
    pub body: &'a [u8],
}

type Result<T> = std::result::Result<T, Box<dyn std::error::Error>>;

/// The name that a filter asks for, if it asks for one name alone.
fn asked_name(filter: &str) -> Option<&str> {
    filter.strip_prefix("userName eq \"")?.strip_suffix('"')
}

pub struct Provider {
    pub rows: Rows,
}

impl Provider {
    pub fn answer(&mut self, request: &Request) -> Answer {
        let answered = self.try_answer(request).or_else(|error| {
            eprintln!("{error}");
            fault(500, None, "the provider could not complete the request")
        });
        answered.expect("the answer to a fault has no fault")
    }

    fn try_answer(&mut self, request: &Request) -> Result<Answer> {
        let (path, query) = request.target.split_once('?').unwrap_or((request.target, ""));
        let id = path.strip_prefix("/v2/Users/");
        if id.is_none() && path != "/v2/Users" {
            return fault(404, None, "no such path");
        }
        match (request.method, id) {
            ("GET", None) => self.search(query),
            ("POST", None) => self.create(request.body),
            ("GET", Some(id)) => match self.found(id)? {
                Some(row) => show(200, row),
                None => fault(404, None, "no such resource"),
            },
            ("PUT", Some(id)) => self.replace(id, request.if_match, request.body),
            _ => fault(501, None, "the method is not supported"),
        }
    }

    fn found(&self, id: &str) -> Result<Option<Row>> {
        let number = id.strip_prefix(IDS).and_then(|digits| usize::from_str_radix(digits, 16).ok());
        number.map_or(Ok(None), |number| self.rows.by_number(number))
    }

    fn search(&self, query: &str) -> Result<Answer> {
        let (mut start, mut count, mut name) = (1, 200, None);
        for (key, value) in form_urlencoded::parse(query.as_bytes()) {
            match &*key {
                "startIndex" => start = value.parse::<usize>()?.max(1),
                "count" => count = value.parse::<usize>()?.min(200),
                "filter" => match asked_name(&value) {
                    Some(asked) => name = Some(asked.to_ascii_lowercase()),
                    None => return fault(400, Some("invalidFilter"), "the filter is not supported"),
                },
                _ => {}
            }
        }
        match name {
            Some(name) => {
                let found = self.rows.by_name(&name)?;
                list(start, found.iter().len(), found.into_iter().skip(start - 1).take(count))
            }
            None => list(start, self.rows.count()?, self.rows.page(start - 1, count)?.into_iter()),
        }
    }

    fn create(&mut self, body: &[u8]) -> Result<Answer> {
        let Some(user) = User::read(body) else {
            return fault(400, Some("invalidSyntax"), "the body is not a readable resource");
        };
        match self.rows.insert(user)? {
            Some(row) => show(201, row),
            None => fault(409, Some("uniqueness"), "the name is taken"),
        }
    }

    fn replace(&mut self, id: &str, if_match: Option<&str>, body: &[u8]) -> Result<Answer> {
        let Some(user) = User::read(body) else {
            return fault(400, Some("invalidSyntax"), "the body is not a readable resource");
        };
        let Some(row) = self.found(id)? else { return fault(404, None, "no such resource") };
        let tag = format!("\"{}\"", row.version);
        if !if_match.map_or(true, |tags| tags.split(',').any(|it| it.trim() == "*" || it.trim() == tag)) {
            return fault(412, None, "the resource has another version");
        }
        if user.key() != row.user.key() {
            return fault(400, Some("mutability"), "the name of a resource is fixed");
        }
        let row = Row { user, version: row.version + 1, ..row };
        self.rows.update(&row)?;
        show(200, row)
    }
}
