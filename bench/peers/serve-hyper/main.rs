//! The work of `scimlink serve` by hyper and tokio: `serve-hyper [STORE]`. It prints the address on which it
//! listens, and serves one request a connection until it is killed.
use hyper::header::{HeaderValue, CONTENT_LOCATION, CONTENT_TYPE, ETAG, IF_MATCH, LOCATION};
use hyper::server::conn::Http;
use hyper::service::service_fn;
use hyper::{Body, Request, Response, StatusCode};
use std::error::Error;
use std::sync::{Arc, Mutex};
use tokio::net::TcpListener;

#[path = "../provider/mod.rs"]
mod provider;
use provider::{Answer, Provider, Rows};

type Result<T> = std::result::Result<T, Box<dyn Error + Send + Sync>>;

fn response(answer: Answer) -> Result<Response<Body>> {
    let mut response = Response::new(Body::from(answer.body));
    *response.status_mut() = StatusCode::from_u16(answer.status)?;
    let fields = response.headers_mut();
    fields.insert(CONTENT_TYPE, HeaderValue::from_static("application/scim+json"));
    if let Some((location, version)) = answer.shown {
        fields.insert(ETAG, version.try_into()?);
        if answer.status == 201 {
            fields.insert(LOCATION, (&location).try_into()?);
        }
        fields.insert(CONTENT_LOCATION, location.try_into()?);
    }
    Ok(response)
}

async fn answer(provider: Arc<Mutex<Provider>>, request: Request<Body>) -> Result<Response<Body>> {
    let (head, body) = request.into_parts();
    let body = hyper::body::to_bytes(body).await?;
    let target = head.uri.path_and_query().map_or("/", |target| target.as_str());
    let if_match = head.headers.get(IF_MATCH).map(|value| value.to_str()).transpose()?;
    let request = provider::Request { method: head.method.as_str(), target, if_match, body: &body };
    let answer = provider.lock().expect("no request panics").answer(&request);
    response(answer)
}

#[tokio::main]
async fn main() -> Result<()> {
    let store = std::env::args().nth(1);
    let rows =
        store.map_or(Ok(Rows::in_memory()), |path| Rows::open(&path)).map_err(|error| error.to_string())?;
    let provider = Arc::new(Mutex::new(Provider { rows }));
    let listener = TcpListener::bind("127.0.0.1:0").await?;
    println!("listening {}", listener.local_addr()?);
    loop {
        let (stream, _) = listener.accept().await?;
        let provider = provider.clone();
        tokio::spawn(async move {
            let service = service_fn(|request| answer(provider.clone(), request));
            if let Err(error) = Http::new().http1_keep_alive(false).serve_connection(stream, service).await {
                eprintln!("{error}");
            }
        });
    }
}
