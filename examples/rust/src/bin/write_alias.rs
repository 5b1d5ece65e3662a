//! write_alias INTERFACE PLACE ALIAS: sets the station alias of the slave at this place of the line, from 0, and its check byte with it.

use pilzhoon_sys::{Access, Datagram, Progress};
use std::ffi::{CString, c_char, c_int, c_void};
use std::process::ExitCode;

#[repr(C)]
struct Place {
    family: u16,
    protocol: u16,
    interface: c_int,
    kind: u16,
    packet: u8,
    length: u8,
    address: [u8; 8],
}

#[repr(C)]
struct Ready {
    file: c_int,
    events: i16,
    came: i16,
}

unsafe extern "C" {
    fn socket(domain: c_int, kind: c_int, protocol: c_int) -> c_int;
    fn bind(file: c_int, place: *const Place, length: u32) -> c_int;
    fn send(file: c_int, bytes: *const c_void, length: usize, flags: c_int) -> isize;
    fn recv(file: c_int, bytes: *mut c_void, length: usize, flags: c_int) -> isize;
    fn poll(files: *mut Ready, count: u64, wait: c_int) -> c_int;
    fn if_nametoindex(name: *const c_char) -> u32;
}

const AF_PACKET: u16 = 17;
const SOCK_RAW: c_int = 3;
const POLLIN: i16 = 1;
const ETHERCAT: u16 = 0x88a4;
const WAIT_MS: c_int = 50;
const WORDS: usize = 64;

/// A raw socket on an interface, and the number of the last datagram.
struct Wire {
    file: c_int,
    index: u8,
}

impl Wire {
    fn open(name: &str) -> Option<Wire> {
        let text = CString::new(name).ok()?;
        // SAFETY: the pointers are those of values that live throughout the calls.
        unsafe {
            let file = socket(c_int::from(AF_PACKET), SOCK_RAW, c_int::from(ETHERCAT.to_be()));
            let interface = if_nametoindex(text.as_ptr()) as c_int;
            let place = Place { family: AF_PACKET, protocol: ETHERCAT.to_be(), interface, kind: 0, packet: 0, length: 0, address: [0; 8] };
            (file >= 0 && interface > 0 && bind(file, &place, 20) == 0).then_some(Wire { file, index: 0 })
        }
    }

    /// Sends one datagram in a frame of its own. The working counter that came back, with the content; or None if none came in time.
    fn exchange(&mut self, command: u8, adp: u16, ado: u16, content: &mut [u8]) -> Option<u16> {
        self.index = self.index.wrapping_add(1);
        let count = content.len();
        let mut frame = vec![0xff, 0xff, 0xff, 0xff, 0xff, 0xff, 2, 0, 0, 0, 0, 1, 0x88, 0xa4, 12 + count as u8, 0x10, command, self.index];
        for word in [adp, ado, count as u16, 0] {
            frame.extend(word.to_le_bytes());
        }
        frame.extend_from_slice(content);
        frame.resize(60, 0);
        let mut came = [0u8; 1514];
        let mut ready = Ready { file: self.file, events: POLLIN, came: 0 };
        // SAFETY: as above, and the lengths are those of the arrays.
        unsafe {
            if send(self.file, frame.as_ptr().cast(), frame.len(), 0) < 0 {
                return None;
            }
            while poll(&mut ready, 1, WAIT_MS) > 0 {
                let size = recv(self.file, came.as_mut_ptr().cast(), came.len(), 0);
                if size >= 28 + count as isize && came[16] == command && came[17] == self.index {
                    content.copy_from_slice(&came[26..26 + count]);
                    return Some(u16::from_le_bytes([came[26 + count], came[27 + count]]));
                }
            }
        }
        None
    }

    /// Carries an access through, to this end. The error says how it ended otherwise.
    fn run(&mut self, mut access: Access, station: u16, wanted: &[Progress]) -> Result<(Progress, Access), String> {
        loop {
            let mut sent = Datagram::default();
            match access.next(&mut sent) {
                Progress::Send => {}
                end if wanted.contains(&end) => return Ok((end, access)),
                end => return Err(format!("{end:?}")),
            }
            let content = &mut sent.content[..usize::from(sent.length)];
            match self.exchange(sent.command, station, sent.ado, content) {
                Some(counter) => access.take(counter, content),
                None => access.lose(),
            }
            .map_err(|refused| format!("{refused:?}"))?;
        }
    }

    fn write_word(&mut self, station: u16, word: u16, value: u16) -> Result<(), String> {
        for _ in 0..3 {
            let ends = [Progress::Taken, Progress::NotTaken, Progress::Lost];
            let (issued, _) = self.run(Access::issue(word, value), station, &ends)?;
            let taken = issued == Progress::Taken;
            if let (Progress::Written, _) = self.run(Access::settle(taken), station, &[Progress::Written, Progress::Again])? {
                return Ok(());
            }
        }
        Err(format!("word {word} isn't written in three tries"))
    }

    fn set_alias(&mut self, station: u16, alias: u16) -> Result<(), String> {
        self.run(Access::open(), station, &[Progress::Opened])?;
        let mut old = Vec::new();
        for word in (0..WORDS as u16).step_by(2) {
            let (_, access) = self.run(Access::read(word), station, &[Progress::Read])?;
            old.extend(access.first.to_le_bytes());
            old.extend(access.second.to_le_bytes());
        }
        let mut new = old.clone();
        pilzhoon_sys::set_alias(&mut new, alias).map_err(|refused| format!("{refused:?}"))?;
        for (word, (was, is)) in old.chunks(2).zip(new.chunks(2)).enumerate() {
            if was != is {
                self.write_word(station, word as u16, u16::from_le_bytes([is[0], is[1]]))?;
                println!("word {word} written");
            }
        }
        Ok(())
    }
}

fn work(name: &str, place: u16, alias: u16) -> Result<(), String> {
    let mut wire = Wire::open(name).ok_or(format!("{name}: no raw socket"))?;
    let station = 0x1001 + place;
    if wire.exchange(2, 0u16.wrapping_sub(place), 0x0010, &mut station.to_le_bytes()) != Some(1) {
        return Err(format!("no slave at place {place}"));
    }
    wire.set_alias(station, alias)
}

fn main() -> ExitCode {
    let words: Vec<String> = std::env::args().collect();
    let asked = match words.as_slice() {
        [_, name, place, alias] => place.parse().ok().zip(alias.parse().ok()).map(|(place, alias)| (name, place, alias)),
        _ => None,
    };
    let Some((name, place, alias)) = asked else {
        eprintln!("usage: write_alias INTERFACE PLACE ALIAS");
        return ExitCode::from(2);
    };
    match work(name, place, alias) {
        Ok(()) => ExitCode::SUCCESS,
        Err(why) => {
            eprintln!("{why}");
            ExitCode::FAILURE
        }
    }
}
