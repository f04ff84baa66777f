//! Which places of the gate's code were reached: fuzz/build puts the counters of the gate's object into
//! sections of their own.

use std::sync::Mutex;

extern "C" {
    static __start_gate_counters: u8;
    static __stop_gate_counters: u8;
    static __start_gate_places: [usize; 2];
    static __ehdr_start: u8;
}

static REACHED: Mutex<Vec<bool>> = Mutex::new(Vec::new());

/// Notes what the input at hand has reached so far.
pub fn note() {
    // The linker gives both ends; libFuzzer sets the counters back before each input.
    let counters = unsafe {
        let start = &raw const __start_gate_counters;
        let length = (&raw const __stop_gate_counters).offset_from(start) as usize;
        std::slice::from_raw_parts(start, length)
    };
    let mut reached = REACHED.lock().expect("one thread");
    reached.resize(counters.len(), false);
    for (place, &count) in reached.iter_mut().zip(counters) {
        *place |= count != 0;
    }
}

/// How many were reached, and the addresses of the others.
pub fn print() {
    let reached = REACHED.lock().expect("one thread");
    let (count, all) = (reached.iter().filter(|&&place| place).count(), reached.len());
    eprintln!("places: {count} of {all} of the gate's code reached");
    let (places, start) = (&raw const __start_gate_places, (&raw const __ehdr_start) as usize);
    for (at, _) in reached.iter().enumerate().filter(|(_, &place)| !place) {
        let address = unsafe { (*places.add(at))[0] } - start;
        eprintln!("unreached: {address:x}");
    }
}
