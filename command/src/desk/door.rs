//! Who may ask, and for what: requests of the desk's own page, for the page and for its calls. All others are
//! refused before anything is read.

use super::calls::{Desk, Refused};
use serde_json::json;
use std::io::Write;
use std::mem;
use tiny_http::{HTTPVersion, Header, Method, Request, Response, StatusCode};

/// The most bytes of a request's body: a text of the most bytes, each spelled `\u0000`, and the names around it.
pub const MOST_BODY: usize = 8 * crate::files::MOST_BYTES;

/// A body beyond the most is read to its end and dropped up to this length. Of a longer one nothing more is read.
const MOST_DROPPED: usize = 64 << 20;

const PAGE: &str = include_str!("page.html");
const STYLE: &str = include_str!("page.css");
const SCRIPT: &str = include_str!("page.js");

const HTML: &str = "text/html; charset=utf-8";
const CSS: &str = "text/css; charset=utf-8";
const JAVASCRIPT: &str = "text/javascript; charset=utf-8";
const JSON: &str = "application/json";

/// Nothing is loaded from elsewhere, shown within another page, or kept by the browser.
const HEADERS: [(&str, &str); 6] = [
    (
        "Content-Security-Policy",
        "default-src 'none'; script-src 'self'; style-src 'self'; connect-src 'self'; base-uri 'none'; \
         form-action 'none'; frame-ancestors 'none'",
    ),
    ("X-Frame-Options", "DENY"),
    ("X-Content-Type-Options", "nosniff"),
    ("Cross-Origin-Resource-Policy", "same-origin"),
    ("Referrer-Policy", "same-origin"),
    ("Cache-Control", "no-store"),
];

pub struct Door {
    desk: Desk,
    /// Host and port, as the page's own requests name them.
    address: String,
    origin: String,
    page: String,
}

/// What is answered: a status, its kind and its text.
type Answer = (u16, &'static str, Vec<u8>);

/// Text that stands for itself within HTML.
fn escaped(text: &str) -> String {
    text.replace('&', "&amp;").replace('<', "&lt;").replace('>', "&gt;").replace('"', "&quot;")
}

fn header(name: &str, value: &str) -> Header {
    Header::from_bytes(name, value).expect("a header of ASCII")
}

/// The values of a header, as often as it stands.
fn values<'a>(request: &'a Request, name: &'static str) -> Vec<&'a str> {
    let of_name = |header: &&Header| header.field.equiv(name);
    request.headers().iter().filter(of_name).map(|header| header.value.as_str()).collect()
}

impl Door {
    pub fn new(desk: Desk, address: String) -> Door {
        let page = PAGE.replace("{name}", &escaped(desk.name()));
        Door { desk, origin: format!("http://{address}"), address, page }
    }

    /// Whether a request is of the page that this desk serves, or of someone who typed its address.
    fn is_ours(&self, request: &Request) -> Result<(), Refused> {
        let refused = |words: String| Err(Refused { status: 403, words });
        let (address, origin) = (&self.address, &self.origin);
        if values(request, "Host") != [address] {
            return refused(format!("another host; expected `Host: {address}`"));
        }
        let origins = values(request, "Origin");
        if !(origins == [origin] || origins.is_empty() && *request.method() == Method::Get) {
            return refused(format!("another origin; expected `Origin: {origin}`"));
        }
        let sites = values(request, "Sec-Fetch-Site");
        if sites.iter().any(|site| !["same-origin", "none"].contains(site)) {
            return refused(
                "a request of another site; expected one of the desk's own page".into(),
            );
        }
        Ok(())
    }

    /// The body of a call.
    fn body(&self, request: &mut Request) -> Result<Vec<u8>, Refused> {
        let refused = |status, words: String| Err(Refused { status, words });
        if values(request, "Content-Type") != [JSON] {
            return refused(415, format!("another kind of body; expected `Content-Type: {JSON}`"));
        }
        if values(request, "Connection").iter().any(|it| it.to_lowercase().contains("upgrade")) {
            return refused(400, "an upgrade; expected a call".into());
        }
        let length = match (values(request, "Content-Length").len(), request.body_length()) {
            (1, Some(length)) => length,
            _ => return refused(411, "no length; expected one `Content-Length`".into()),
        };
        if length > MOST_BODY {
            return refused(413, format!("{length} bytes; expected at most {MOST_BODY}"));
        }
        let mut bytes = Vec::new();
        match request.as_reader().read_to_end(&mut bytes) {
            Ok(read) if read == length => Ok(bytes),
            _ => refused(400, "a body that breaks off".into()),
        }
    }

    fn call(&self, request: &mut Request, call: &str) -> Result<Answer, Refused> {
        if *request.method() != Method::Post {
            return Err(Refused { status: 405, words: "another method; expected POST".into() });
        }
        let body = self.body(request)?;
        Ok((200, JSON, self.desk.answer(call, &body)?))
    }

    fn found(&self, request: &mut Request) -> Result<Answer, Refused> {
        self.is_ours(request)?;
        let url = request.url().to_string();
        if let Some(call) = url.strip_prefix("/api/") {
            return self.call(request, call);
        }
        let (kind, text) = match url.as_str() {
            "/" => (HTML, self.page.as_str()),
            "/page.css" => (CSS, STYLE),
            "/page.js" => (JAVASCRIPT, SCRIPT),
            _ => {
                let words = "no such page; expected /, /page.css, /page.js or /api/CALL".into();
                return Err(Refused { status: 404, words });
            }
        };
        if *request.method() != Method::Get {
            return Err(Refused { status: 405, words: "another method; expected GET".into() });
        }
        Ok((200, kind, text.as_bytes().to_vec()))
    }

    /// Answers a request. A client that doesn't wait for the answer is no matter.
    pub fn answer(&self, mut request: Request) {
        let (status, kind, bytes) = self.found(&mut request).unwrap_or_else(|refused| {
            let words = json!({ "error": refused.words }).to_string();
            (refused.status, JSON, words.into_bytes())
        });
        let mut response =
            Response::from_data(bytes).with_status_code(status).with_chunked_threshold(usize::MAX);
        for (name, value) in HEADERS.into_iter().chain([("Content-Type", kind)]) {
            response.add_header(header(name, value));
        }
        if request.body_length().map_or(false, |length| length > MOST_DROPPED) {
            // The reader of a body makes room for all of what is left when it is dropped, so it never is. An
            // answer that goes on comes before the last one: it is what gives the stream.
            let mut stream = request.upgrade("none", Response::new_empty(StatusCode(100)));
            let _ = response.raw_print(&mut stream, HTTPVersion(1, 1), &[], false, None);
            let _ = stream.flush();
            mem::forget(stream);
            return;
        }
        let _ = request.respond(response);
    }
}
