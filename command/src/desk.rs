//! `rewrites desk`: a page for one folder, served on this machine alone. What it shows is answered by the
//! library; files are written only where the page asks to save one.

mod calls;
mod door;
mod papers;
mod steps;

use crate::folder::Folder;
use crate::output::{Output, Unwritten};
use crate::status::Status;
use calls::Desk;
use clap::Args;
use door::Door;
use std::io;
use std::net::{Ipv4Addr, TcpListener, TcpStream};
use std::path::PathBuf;
use std::sync::Arc;
use std::thread;
use std::time::Duration;
use tiny_http::Server;

/// How long a connection may be left waiting.
const WAITING: Duration = Duration::from_millis(250);

#[derive(Args)]
pub struct Arguments {
    /// A folder with a program in the file `given`; `marks`, `condition`, `conditions` and `start` are
    /// read where they are there, and written where they are saved
    #[arg(value_name = "DIR")]
    folder: PathBuf,
}

/// The server could not be set up.
fn unheard(error: io::Error) -> Unwritten {
    Unwritten { place: Ipv4Addr::LOCALHOST.to_string(), error }
}

/// A server on a port of the system's choice, and its address.
fn listen() -> io::Result<(Server, String)> {
    let listener = TcpListener::bind((Ipv4Addr::LOCALHOST, 0))?;
    let address = listener.local_addr()?.to_string();
    let server = Server::from_listener(listener, None);
    Ok((server.map_err(|error| io::Error::new(io::ErrorKind::Other, error))?, address))
}

/// Of connections that come at the same moment the server may give two to one thread, and a browser keeps connections
/// open, so that the second waits for as long. Where another ends, a waiting one is taken; so one is made that ends at once,
/// again and again.
fn stir(address: &str) {
    loop {
        thread::sleep(WAITING);
        let _ = TcpStream::connect(address);
    }
}

impl Arguments {
    pub fn run(&self, output: &mut Output) -> Result<Status, Unwritten> {
        let mut folder = Folder::new(&self.folder);
        if folder.is_there("a program in `given`").is_none() {
            folder.say(output);
            return Ok(folder.status);
        }
        let desk = Desk::new(&self.folder).map_err(unheard)?;
        let (server, address) = listen().map_err(unheard)?;
        output.print(format!("http://{address}/\n").as_bytes())?;
        let door = Arc::new(Door::new(desk, address.clone()));
        thread::Builder::new().spawn(move || stir(&address)).map_err(unheard)?;
        loop {
            let request = server.recv().map_err(unheard)?;
            let door = Arc::clone(&door);
            // A client that is slow to send or to read holds up no other.
            thread::Builder::new().spawn(move || door.answer(request)).map_err(unheard)?;
        }
    }
}
