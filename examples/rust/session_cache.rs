//! A service keeps in one map which users are logged in, and since when each was idle. Eight threads serve requests of any user. A
//! request of a user who isn't there logs in; one of a user who was idle for too long logs out first. Run:
//! cargo run --release --bin session_cache

use blink::{Answer, Error, Map, Session};
use std::sync::atomic::{AtomicU64, Ordering};
use std::thread;

const THREADS: u64 = 8;
const REQUESTS: u64 = 25_000; // of each thread
const USERS: u64 = 10_000;
const IDLE: u64 = 60_000; // as many requests later a login has run out

/// What one thread has done.
#[derive(Debug, Default)]
struct Served {
    pages: u64,
    logins: u64,
    logouts: u64,
    expiries: u64,
}

/// A user's request for a page, at this time. The user may be served by other threads too.
fn show_page(cache: &mut Session, user: u64, now: u64, served: &mut Served) -> Result<(), Error> {
    if let Some(since) = cache.get(user) {
        // of two threads that find it run out one removes it
        if since + IDLE < now && matches!(cache.remove(user)?, Answer::Removed(_)) {
            served.expiries += 1;
        }
    }
    if cache.put(user, now)?.is_none() {
        served.logins += 1;
    }
    served.pages += 1;
    Ok(())
}

fn log_out(cache: &mut Session, user: u64, served: &mut Served) -> Result<(), Error> {
    if let Answer::Removed(_) = cache.remove(user)? {
        served.logouts += 1;
    }
    Ok(())
}

/// Serves requests of any user, as they come. The clock counts the requests of all threads.
fn serve(map: &Map, thread: u64, clock: &AtomicU64) -> Result<Served, Error> {
    let mut cache = map.session()?;
    let mut served = Served::default();
    let mut random = thread + 1;
    for _ in 0..REQUESTS {
        random = random.wrapping_mul(6_364_136_223_846_793_005).wrapping_add(1_442_695_040_888_963_407);
        let (user, kind) = ((random >> 33) % USERS, (random >> 20) % 20);
        let now = clock.fetch_add(1, Ordering::Relaxed);
        match kind {
            0 => log_out(&mut cache, user, &mut served)?,
            _ => show_page(&mut cache, user, now, &mut served)?,
        }
    }
    Ok(served)
}

fn main() -> Result<(), Error> {
    let map = Map::default();
    let clock = AtomicU64::new(0);
    let all = thread::scope(|scope| {
        let (map, clock) = (&map, &clock);
        let workers: Vec<_> = (0..THREADS).map(|thread| scope.spawn(move || serve(map, thread, clock))).collect();
        workers.into_iter().map(|worker| worker.join().expect("a worker panicked")).collect::<Result<Vec<_>, _>>()
    })?;
    let sum = |count: fn(&Served) -> u64| all.iter().map(count).sum::<u64>();
    let (logins, logouts, expiries) = (sum(|s| s.logins), sum(|s| s.logouts), sum(|s| s.expiries));
    let left = map.close()?.len() as u64;
    println!("{} pages shown, {logins} logins, {logouts} logouts, {expiries} expiries, {left} users at the end", sum(|s| s.pages));
    assert_eq!(logins, logouts + expiries + left, "a login was lost");
    println!("{} requests: each login has ended, or is in the cache", clock.into_inner());
    Ok(())
}
