//! Guessed passwords. Each address and each name may have so many wrong ones, of which some are
//! forgiven with time; the reply to each takes longer than that to the one before. Passwords are
//! hashed by turns of the addresses, and never on all processors.
use std::collections::{HashMap, HashSet, VecDeque};
use std::hash::Hash;
use std::net::{IpAddr, Ipv6Addr};
use std::sync::{Arc, Mutex, MutexGuard, PoisonError};
use std::thread;
use std::time::{Duration, Instant};
use tokio::sync::oneshot;

/// After so long a wrong password is forgiven.
const FORGIVEN: Duration = Duration::from_secs(30);
/// How long the reply to a wrong password takes. After each few it takes twice as long.
const DELAY: Duration = Duration::from_secs(1);
/// How many have the same delay.
const SAME_DELAY: u32 = 5;
/// How often the delay is doubled at most.
const DOUBLED: u32 = 4;
/// Of how many addresses and names it is known how many wrong passwords they had.
const KNOWN: usize = 10_000;

/// How many passwords may be wrong, of those that are not forgiven yet.
#[derive(Clone, Copy, Debug)]
pub struct Limits {
    /// From one address.
    pub per_address: u32,
    /// Of one name.
    pub per_name: u32,
}

/// What the sessions know of wrong passwords, and of whose password is hashed next.
pub struct Guesses {
    limits: Limits,
    counts: Mutex<Counts>,
    queue: Arc<Mutex<Queue>>,
}

#[derive(Default)]
struct Counts {
    of_addresses: HashMap<IpAddr, Count>,
    of_names: HashMap<Vec<u8>, Count>,
    /// From where each user has logged in.
    right: HashSet<(Vec<u8>, IpAddr)>,
}

/// How many passwords were wrong, and when one was forgiven last.
#[derive(Clone, Copy)]
struct Count {
    wrong: u32,
    since: Instant,
}

impl Count {
    /// How many are not forgiven yet.
    fn left(self, now: Instant) -> u32 {
        let forgiven = now.duration_since(self.since).as_secs() / FORGIVEN.as_secs();
        self.wrong.saturating_sub(u32::try_from(forgiven).unwrap_or(u32::MAX))
    }
}

impl Guesses {
    /// With these limits.
    pub fn new(limits: Limits) -> Guesses {
        let processors = thread::available_parallelism().map_or(1, |number| number.get());
        let free = (processors - 1).max(1);
        let queue = Arc::new(Mutex::new(Queue { free, waiting: VecDeque::new() }));
        Guesses { limits, counts: Mutex::default(), queue }
    }

    fn counts(&self) -> MutexGuard<'_, Counts> {
        self.counts.lock().unwrap_or_else(PoisonError::into_inner)
    }

    /// Whether no password for this name is looked at that comes from this address, since either had too
    /// many wrong ones. Where the name's user has logged in from there before, both have to have had
    /// them, so that the guesses of others keep nobody out.
    pub fn refuses(&self, name: &[u8], from: IpAddr) -> bool {
        let (counts, from, now) = (self.counts(), source(from), Instant::now());
        let of_address = counts.of_addresses.get(&from).map_or(0, |count| count.left(now));
        let of_name = counts.of_names.get(name).map_or(0, |count| count.left(now));
        let many = [of_address >= self.limits.per_address, of_name >= self.limits.per_name];
        if counts.right.contains(&(name.to_vec(), from)) {
            many == [true; 2]
        } else {
            many != [false; 2]
        }
    }

    /// Counts a wrong password, and returns how long its reply is to take.
    pub fn wrong(&self, name: &[u8], from: IpAddr) -> Duration {
        let mut counts = self.counts();
        add(&mut counts.of_names, name.to_vec());
        let before = add(&mut counts.of_addresses, source(from)).saturating_sub(1);
        DELAY * 2u32.pow((before / SAME_DELAY).min(DOUBLED))
    }

    /// Notes a right one.
    pub fn right(&self, name: &[u8], from: IpAddr) {
        let mut counts = self.counts();
        if counts.right.len() == KNOWN {
            counts.right.clear();
        }
        counts.right.insert((name.to_vec(), source(from)));
    }

    /// Waits for the turn of an address. The next one comes where what this returns is dropped.
    pub async fn turn(&self, from: IpAddr) -> Turn {
        match enter(&self.queue, source(from)) {
            Entered::Begins(turn) => turn,
            // its sender stays in the queue until then
            Entered::Waits(turn) => turn.await.expect("the queue sends each its turn"),
        }
    }
}

/// What guesses count for: an IPv4 address, or the network of an IPv6 address, of which one host has
/// all addresses (RFC 4291, section 2.5.1).
fn source(address: IpAddr) -> IpAddr {
    match address {
        IpAddr::V6(address) => Ipv6Addr::from(u128::from(address) >> 64 << 64).into(),
        IpAddr::V4(_) => address,
    }
}

/// Counts one more, and returns how many there are. Where too many are known, the fewest are forgotten.
fn add<K: Hash + Eq + Clone>(counts: &mut HashMap<K, Count>, key: K) -> u32 {
    let now = Instant::now();
    if counts.len() >= KNOWN && !counts.contains_key(&key) {
        let fewest = counts.iter().min_by_key(|(_, count)| (count.left(now), count.since));
        if let Some(fewest) = fewest.map(|(key, _)| key.clone()) {
            counts.remove(&fewest);
        }
    }
    let count = counts.entry(key).or_insert(Count { wrong: 0, since: now });
    // what is forgiven of the next one has begun
    let begun = now.duration_since(count.since).as_secs() % FORGIVEN.as_secs();
    let since = now.checked_sub(Duration::from_secs(begun)).unwrap_or(now);
    *count = Count { wrong: count.left(now) + 1, since };
    count.wrong
}

/// Whose password is hashed next: the addresses take turns.
struct Queue {
    /// How many may begin.
    free: usize,
    /// Those that wait, by their address.
    waiting: VecDeque<(IpAddr, VecDeque<oneshot::Sender<Turn>>)>,
}

impl Queue {
    /// Who is next.
    fn next(&mut self) -> Option<oneshot::Sender<Turn>> {
        let (from, mut waiting) = self.waiting.pop_front()?;
        let next = waiting.pop_front();
        if !waiting.is_empty() {
            self.waiting.push_back((from, waiting));
        }
        next
    }
}

fn locked(queue: &Mutex<Queue>) -> MutexGuard<'_, Queue> {
    queue.lock().unwrap_or_else(PoisonError::into_inner)
}

/// What becomes of one that enters the queue.
enum Entered {
    Begins(Turn),
    Waits(oneshot::Receiver<Turn>),
}

/// Lets one begin, or wait for its turn.
fn enter(queue: &Arc<Mutex<Queue>>, from: IpAddr) -> Entered {
    let mut places = locked(queue);
    if places.free > 0 {
        places.free -= 1;
        return Entered::Begins(Turn(Some(queue.clone())));
    }
    let (sender, receiver) = oneshot::channel();
    match places.waiting.iter_mut().find(|(address, _)| *address == from) {
        Some((_, waiting)) => waiting.push_back(sender),
        None => places.waiting.push_back((from, [sender].into())),
    }
    Entered::Waits(receiver)
}

/// A turn. It is the value that is sent to the next one, so that it isn't lost where that one goes
/// away before it takes it.
#[must_use = "the turn ends where this is dropped"]
pub struct Turn(Option<Arc<Mutex<Queue>>>);

impl Drop for Turn {
    /// Gives it to the next one. One that is away is passed over.
    fn drop(&mut self) {
        let Some(queue) = self.0.take() else { return };
        let mut places = locked(&queue);
        while let Some(next) = places.next() {
            match next.send(Turn(Some(queue.clone()))) {
                Ok(()) => return,
                // it isn't to be given on by its own drop, under this lock
                Err(mut turn) => drop(turn.0.take()),
            }
        }
        places.free += 1;
    }
}

#[cfg(test)]
mod tests {
    use super::*;

    fn address(text: &str) -> IpAddr {
        text.parse().expect("an address")
    }

    #[test]
    fn a_host_has_a_network_of_ipv6() {
        assert_eq!(source(address("2001:db8:0:1:2:3:4:5")), address("2001:db8:0:1::"));
        assert_eq!(source(address("192.0.2.7")), address("192.0.2.7"));
    }

    fn queue() -> Arc<Mutex<Queue>> {
        Arc::new(Mutex::new(Queue { free: 1, waiting: VecDeque::new() }))
    }

    fn waits(queue: &Arc<Mutex<Queue>>, from: IpAddr) -> oneshot::Receiver<Turn> {
        match enter(queue, from) {
            Entered::Begins(_) => panic!("the turn of another"),
            Entered::Waits(turn) => turn,
        }
    }

    #[test]
    fn addresses_take_turns() {
        let (many, one) = (address("192.0.2.1"), address("192.0.2.2"));
        let queue = queue();
        let Entered::Begins(mut turn) = enter(&queue, many) else { panic!("nobody is before it") };
        let mut waiting: Vec<_> = [many, many, many, one].map(|it| waits(&queue, it)).into();
        let mut order = Vec::new();
        for _ in 0..4 {
            drop(turn);
            let next = waiting.iter_mut().map(|it| it.try_recv().ok()).enumerate();
            let (place, next) = next.filter_map(|(at, it)| Some((at, it?))).next().expect("a turn");
            order.push(place);
            turn = next;
        }
        assert_eq!(order, [0, 3, 1, 2]);
        drop(turn);
        assert_eq!(locked(&queue).free, 1);
    }

    #[test]
    fn a_turn_is_not_lost_with_its_session() {
        let queue = queue();
        let from = address("192.0.2.1");
        let Entered::Begins(turn) = enter(&queue, from) else { panic!("nobody is before it") };
        let [away, gone, next] = [from; 3].map(|it| waits(&queue, it));
        drop(away);
        drop(turn);
        // the turn was sent, and is not taken
        drop(gone);
        drop(next);
        assert_eq!(locked(&queue).free, 1);
    }

    #[test]
    fn the_fewest_are_forgotten() {
        let mut counts = HashMap::new();
        assert_eq!((add(&mut counts, 0), add(&mut counts, 0)), (1, 2));
        for key in 1..KNOWN + 100 {
            assert_eq!(add(&mut counts, key), 1);
        }
        assert_eq!((counts.len(), add(&mut counts, 0)), (KNOWN, 3));
    }
}
