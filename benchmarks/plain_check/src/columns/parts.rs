//! Parts of a file, and threads that work beside each other.
use super::cursor::Cursor;
use std::thread::ScopedJoinHandle;

/// What a thread gave. A fault that it found ends the program.
pub fn result_of<T>(thread: ScopedJoinHandle<T>) -> T {
    thread.join().expect("a thread without a fault")
}

/// Runs `work` on the numbers below `threads`, each in a thread of its own where there are several,
/// and keeps what they give in order.
pub fn in_threads<T: Send>(threads: usize, work: impl Fn(usize) -> T + Sync) -> Vec<T> {
    let work = &work;
    if threads == 1 {
        return vec![work(0)];
    }
    std::thread::scope(|scope| {
        let start = |number| scope.spawn(move || work(number));
        let running: Vec<_> = (0..threads).map(start).collect();
        running.into_iter().map(result_of).collect()
    })
}

/// Divides the file from `start` on into so many parts, each of whole lines.
pub fn parts_of(file: &[u8], start: usize, count: usize) -> Vec<Cursor<'_>> {
    let length = file.len() - start;
    let mut at = start;
    let next = |part| {
        let end = end_of_line(file, start + length * part / count).max(at);
        Cursor::new(file, (std::mem::replace(&mut at, end), end))
    };
    (1..=count).map(next).collect()
}

/// Where the line that has this place ends, its end counted; the end of the file is one, too.
fn end_of_line(file: &[u8], place: usize) -> usize {
    let rest = &file[place..];
    memchr::memchr(b'\n', rest).map_or(file.len(), |length| place + length + 1)
}
