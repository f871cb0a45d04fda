//! A test server over TCP, of many connections at once, that answers each call with its own body: server PORT KEY_FILE.
use kifzaro::{now, seed, Error, Server, SessionName, Wire};
use std::{collections::HashMap, net::TcpListener, net::TcpStream, sync::Arc, sync::Mutex, thread};
type Shared = Mutex<(Server, HashMap<SessionName, Arc<TcpStream>>)>;
fn serve(shared: &Shared, stream: &Arc<TcpStream>) -> Result<(), Box<dyn std::error::Error>> {
    let mut wire = Wire::server(&**stream)?;
    while let Ok(packet) = wire.receive() {
        let (server, ends) = &mut *shared.lock().map_err(|_| "another thread failed")?;
        match server.handle_packet(now(), &packet) {
            Ok(name) => if !ends.insert(name, stream.clone()).is_some_and(|before| Arc::ptr_eq(&before, stream)) { server.attach(name, now())? },
            Err(Error::Refused(why)) => eprintln!("{why}"),
            Err(why) => return Err(why.into()),
        }
        server.tick(now())?;
        while let Some(request) = server.next_request()? { server.answer(now(), &request)? }
        while let Some((to, packet)) = server.poll_transmit()? { Wire::over(&*ends[&to]).send(&packet).unwrap_or(()) }
    }
    Ok(())
}
fn main() -> Result<(), Box<dyn std::error::Error>> {
    let words: Vec<String> = std::env::args().collect();
    let shared: Arc<Shared> = Arc::new(Mutex::new((Server::new(&std::fs::read(&words[2])?, &seed()?)?, HashMap::new())));
    let listening = TcpListener::bind(("127.0.0.1", words[1].parse()?))?;
    println!("listening {}", listening.local_addr()?.port());
    for stream in listening.incoming() {
        let (shared, stream) = (shared.clone(), Arc::new(stream?));
        thread::spawn(move || serve(&shared, &stream).unwrap_or_else(|why| eprintln!("{why}")));
    }
    Ok(())
}
