//! Ends that are out of memory.
use std::alloc::{GlobalAlloc, Layout, System};
use std::cell::Cell;
use std::ptr::null_mut;
use unftp_control::{AuthParam, Client, Command, Error, Event, Pending};

thread_local! {
    /// How many allocations of this thread go well before one fails.
    static LEFT: Cell<usize> = const { Cell::new(usize::MAX) };
}

/// The system's allocator, but for the allocation that is to fail.
struct Failing;

fn fails() -> bool {
    let left = LEFT.get();
    LEFT.set(left.wrapping_sub(1));
    left == 0
}

// SAFETY: each call is one of `System`, or returns null, which says that there is no memory.
unsafe impl GlobalAlloc for Failing {
    unsafe fn alloc(&self, layout: Layout) -> *mut u8 {
        if fails() {
            return null_mut();
        }
        unsafe { System.alloc(layout) }
    }

    unsafe fn realloc(&self, pointer: *mut u8, layout: Layout, size: usize) -> *mut u8 {
        if fails() {
            return null_mut();
        }
        unsafe { System.realloc(pointer, layout, size) }
    }

    unsafe fn dealloc(&self, pointer: *mut u8, layout: Layout) {
        unsafe { System.dealloc(pointer, layout) }
    }
}

#[global_allocator]
static ALLOCATOR: Failing = Failing;

#[test]
fn a_line_that_is_not_sent_costs_nothing() {
    let mut client = Client::with_values();
    let (mut output, mut failed) = (Vec::new(), 0);
    for count in 0..100 {
        let mut value = count.to_string();
        for left in 0.. {
            LEFT.set(left);
            let sent = client.send_line_with(b"NOOP\r\n", value, &mut output);
            LEFT.set(usize::MAX);
            let Err(unsent) = sent else { break };
            assert_eq!(unsent.error, Error::OutOfMemory);
            assert_eq!((client.owed(), output.len()), (count, 6 * count as usize));
            value = unsent.value;
            failed += 1;
        }
    }
    // the output and the queue of values grow more than once each
    assert!(failed >= 4, "{failed} allocations failed");
    let numbers = (0..100).map(|count: u64| count.to_string());
    assert!(client.into_values().eq(numbers));
    assert_eq!(output, b"NOOP\r\n".repeat(100));
}

/// The next event, where no allocation succeeds.
fn event_without_memory(pending: &mut Pending) -> Result<Option<Event<'_>>, Error> {
    LEFT.set(0);
    let event = pending.next_event();
    LEFT.set(usize::MAX);
    event
}

#[test]
fn a_line_that_has_its_value_as_it_is_takes_no_memory() -> Result<(), Error> {
    let mut pending = Pending::new();
    pending.push(b"noop\r\nRETR a b\r\nauth tls\r\nclnt x\r\nQUIT\r\n")?;
    assert_eq!(event_without_memory(&mut pending)?, Some(Event::Command(Command::Noop)));
    let retr = Command::Retr { path: "a b".into() };
    assert_eq!(event_without_memory(&mut pending)?, Some(Event::Command(retr)));
    // the line stays pending
    assert_eq!(event_without_memory(&mut pending), Err(Error::OutOfMemory));
    assert!(pending.bytes().starts_with(b"auth"));
    let auth = Command::Auth { protocol: AuthParam::Tls };
    assert_eq!(pending.next_event()?, Some(Event::Command(auth)));
    // there is room for a name by now
    let other = Command::Other { command_name: "CLNT".into(), arguments: "x".into() };
    assert_eq!(event_without_memory(&mut pending)?, Some(Event::Command(other)));
    assert_eq!(event_without_memory(&mut pending)?, Some(Event::Command(Command::Quit)));
    Ok(())
}
