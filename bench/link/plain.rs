//! The plain programs that a link is measured beside: std's bounded channel, and a ring by hand.
//!
//! Arguments: `channel` or `ring`, and then those of `main.rt`. It prints what that prints.

use std::cell::UnsafeCell;
use std::mem::MaybeUninit;
use std::sync::Arc;
use std::sync::atomic::{AtomicBool, AtomicUsize, Ordering};
use std::time::{Duration, Instant};
use std::{env, hint, mem, thread};

#[allow(dead_code)]
struct Field {
    pen: u32,
    number: u16,
    octets: Vec<u8>,
}

#[allow(dead_code)]
struct DataRecord {
    domain: u32,
    export_time: u32,
    template: u16,
    scope: u16,
    fields: Vec<Field>,
}

enum Parcel {
    Item(DataRecord),
    Last,
}

fn item(number: u32, octets: usize) -> Parcel {
    let mut fields = Vec::new();
    if octets > 0 {
        let mut value = Vec::with_capacity(octets);
        for _ in 0..octets {
            value.push(7u8);
        }
        fields.push(Field {
            pen: 0,
            number: 1,
            octets: value,
        });
    }
    Parcel::Item(DataRecord {
        domain: number,
        export_time: 1_700_000_000,
        template: 256,
        scope: 0,
        fields,
    })
}

#[repr(align(128))]
struct Alone<T>(T);

struct Ring {
    slots: Box<[UnsafeCell<MaybeUninit<Parcel>>]>,
    head: Alone<AtomicUsize>,
    tail: Alone<AtomicUsize>,
    gone: Alone<AtomicBool>,
}

unsafe impl Sync for Ring {}

fn pause(tries: u32) {
    if tries < 64 {
        hint::spin_loop();
    } else {
        let nap = (tries - 63).saturating_mul(10).min(1000);
        thread::sleep(Duration::from_micros(nap as u64));
    }
}

struct Sending {
    ring: Arc<Ring>,
    head: usize,
    tail: usize,
    at: usize,
}

impl Sending {
    fn send(&mut self, parcel: Parcel) -> bool {
        let mut tries = 0;
        while self.tail - self.head == self.ring.slots.len() {
            self.head = self.ring.head.0.load(Ordering::Acquire);
            if self.tail - self.head < self.ring.slots.len() {
                break;
            }
            if self.ring.gone.0.load(Ordering::Acquire) {
                return false;
            }
            pause(tries);
            tries += 1;
        }
        unsafe { (*self.ring.slots[self.at].get()).write(parcel) };
        self.at = if self.at + 1 == self.ring.slots.len() { 0 } else { self.at + 1 };
        self.tail += 1;
        self.ring.tail.0.store(self.tail, Ordering::Release);
        true
    }
}

struct Receiving {
    ring: Arc<Ring>,
    head: usize,
    tail: usize,
    at: usize,
}

impl Receiving {
    fn recv(&mut self) -> Parcel {
        let mut tries = 0;
        while self.head == self.tail {
            self.tail = self.ring.tail.0.load(Ordering::Acquire);
            if self.head < self.tail {
                break;
            }
            pause(tries);
            tries += 1;
        }
        let parcel = unsafe { (*self.ring.slots[self.at].get()).assume_init_read() };
        self.at = if self.at + 1 == self.ring.slots.len() { 0 } else { self.at + 1 };
        self.head += 1;
        self.ring.head.0.store(self.head, Ordering::Release);
        parcel
    }
}

fn new_ring(capacity: usize) -> (Sending, Receiving) {
    let slots = (0..capacity)
        .map(|_| UnsafeCell::new(MaybeUninit::uninit()))
        .collect();
    let ring = Arc::new(Ring {
        slots,
        head: Alone(AtomicUsize::new(0)),
        tail: Alone(AtomicUsize::new(0)),
        gone: Alone(AtomicBool::new(false)),
    });
    let other = ring.clone();
    let sending = Sending { ring, head: 0, tail: 0, at: 0 };
    let receiving = Receiving { ring: other, head: 0, tail: 0, at: 0 };
    (sending, receiving)
}

fn pass(
    load: (u32, usize, u64),
    mut send: impl FnMut(Parcel) -> bool + Send + 'static,
    mut recv: impl FnMut() -> Parcel,
) -> u64 {
    let (count, octets, rest) = load;
    let sender = thread::spawn(move || {
        for number in 0..count {
            if !send(item(number, octets)) {
                return;
            }
        }
        thread::sleep(Duration::from_millis(rest));
        send(Parcel::Last);
    });
    let mut sum = 0u64;
    while let Parcel::Item(record) = recv() {
        sum = sum.wrapping_add(record.domain as u64);
    }
    sender.join().unwrap();
    sum
}

// Nanoseconds of processor time that the process has used.
fn cpu() -> u128 {
    #[repr(C)]
    struct Timespec {
        seconds: i64,
        nanos: i64,
    }
    unsafe extern "C" {
        fn clock_gettime(clock: i32, time: *mut Timespec) -> i32;
    }
    let mut time: Timespec = unsafe { mem::zeroed() };
    unsafe { clock_gettime(2, &mut time) };
    time.seconds as u128 * 1_000_000_000 + time.nanos as u128
}

fn main() {
    let words: Vec<String> = env::args().collect();
    let numbers: Vec<u64> = words[2..].iter().map(|word| word.parse().unwrap()).collect();
    let capacity = numbers[0] as usize;
    let load = (numbers[1] as u32, numbers[2] as usize, numbers[3]);
    let start = Instant::now();
    let busy = cpu();
    let sum = if words[1] == "ring" {
        let (mut sending, mut receiving) = new_ring(capacity);
        pass(load, move |parcel| sending.send(parcel), move || receiving.recv())
    } else {
        let (sending, receiving) = std::sync::mpsc::sync_channel(capacity);
        pass(
            load,
            move |parcel| sending.send(parcel).is_ok(),
            move || receiving.recv().unwrap_or(Parcel::Last),
        )
    };
    println!("{} {} {}", start.elapsed().as_nanos(), cpu() - busy, sum);
}
