//! Two archives of the library beside each other, on the classes of the benchmark. run.sh links each
//! into shared objects whose code begins at four places; here all of them take turns in one process. A
//! time is the least of all rounds and places, so that neither other work nor the layout of the code
//! counts for much. How far the places of one archive differ says how much the layout does.

use std::ffi::{c_char, c_int, c_void, CString};
use std::time::{Duration, Instant};

use crate::bench_forms;
use crate::bench_inputs::{self, Class};
use crate::columns::RESULT_WORDS;
use crate::form::{ATOM, HEAD_BYTE, RESULT_BYTES};
use crate::list;
use crate::list_cases;
use crate::pass::{self, PASSES};
use crate::record::RECORD_BYTES;
use crate::written::Written;

type Valuer = unsafe extern "C" fn(*const u8, usize, *const u64, usize, *mut u64) -> u64;
type Writer = unsafe extern "C" fn(*const u8, usize, *mut u8, usize, *mut u64, *mut u64) -> u64;
type Flattener =
    unsafe extern "C" fn(*const u8, usize, *mut u8, usize, *mut u64, *mut u64, *mut u64) -> u64;
type Partitioner = unsafe extern "C" fn(*const u8, usize, *mut u64, usize, *mut u64) -> u64;
type Runner = unsafe extern "C" fn(
    *const u8,
    usize,
    *const u64,
    usize,
    *mut u8,
    usize,
    *mut u8,
    usize,
    *mut u64,
    *mut u64,
) -> u64;

extern "C" {
    fn dlopen(name: *const c_char, flags: c_int) -> *mut c_void;
    fn dlsym(object: *mut c_void, name: *const c_char) -> *mut c_void;
}

const RTLD_NOW: c_int = 2;

/// An exported function of one object.
#[derive(Clone, Copy)]
enum Entry {
    Value(Valuer),
    Write(Writer),
    Flatten(Flattener),
    Partition(Partitioner),
    Run(Runner),
}

/// What calls read beside their input, and where they write.
struct Room {
    vars: Vec<u64>,
    calls: Vec<u64>,
    sheet: Vec<u8>,
    spare: Vec<u8>,
    words: Vec<u64>,
    numbers: [u64; 3],
}

/// A function on a class of inputs, and its entry in each object.
struct Subject {
    function: &'static str,
    class: Class,
    entries: Vec<Entry>,
}

/// `words` are the seconds in all, the objects of the first archive, `--`, those of the second.
pub fn run(words: &[&str]) -> Result<(), String> {
    let (seconds, objects) = words.split_first().ok_or("no seconds")?;
    let seconds: u32 = seconds
        .parse()
        .map_err(|_| format!("{seconds} is no number"))?;
    let split = objects
        .iter()
        .position(|&word| word == "--")
        .ok_or("no --")?;
    let after = objects[split + 1..].iter();
    let names: Vec<&str> = objects[..split].iter().chain(after).copied().collect();
    let handles: Result<Vec<_>, _> = names.iter().map(|name| open(name)).collect();
    let subjects = subjects(&handles?)?;
    let room = &mut Room::new();
    let mut others = 0;
    for subject in &subjects {
        let count = subject.compare(split, room)?;
        if count > 0 {
            let (function, class) = (subject.function, subject.class.name);
            println!("{function}, {class}: other answers than before: {count}");
        }
        others += count;
    }
    match others {
        0 => println!("The answers are the same."),
        _ => println!(
            "All other answers are the same, and these are the Rust's with the differences."
        ),
    }
    println!("A time is that of one call, the mean over the inputs.\n");
    println!("| Function | Input | before, µs | after, µs | after / before | worst input | places before | places after |");
    println!("|---|---|---|---|---|---|---|---|");
    let each = Duration::from_secs(seconds.into()) / subjects.len() as u32;
    for subject in &subjects {
        println!("{}", subject.row(split, each, room));
    }
    Ok(())
}

fn open(name: &str) -> Result<*mut c_void, String> {
    let path = CString::new(name).map_err(|e| format!("{name}: {e}"))?;
    // SAFETY: the path ends in a zero; the objects have nothing that runs when they are opened.
    let handle = unsafe { dlopen(path.as_ptr(), RTLD_NOW) };
    if handle.is_null() {
        return Err(format!("{name} cannot be opened"));
    }
    Ok(handle)
}

/// The function of an object, by its name without the prefix.
fn entry(handle: *mut c_void, function: &str) -> Result<Entry, String> {
    let name = CString::new(format!("hogzelt_{function}")).expect("no zero in a name");
    // SAFETY: the handle is of an open object, and the name ends in a zero.
    let found = unsafe { dlsym(handle, name.as_ptr()) };
    if found.is_null() {
        return Err(format!("an archive has no hogzelt_{function}"));
    }
    // SAFETY: include/hogzelt.h declares the functions of these names with these types.
    Ok(unsafe {
        match function {
            "expr_value" | "semilinear_value" => Entry::Value(std::mem::transmute(found)),
            "flatten_complex_atoms" => Entry::Flatten(std::mem::transmute(found)),
            "compute_partitions" => Entry::Partition(std::mem::transmute(found)),
            "run_passes" => Entry::Run(std::mem::transmute(found)),
            _ => Entry::Write(std::mem::transmute(found)),
        }
    })
}

/// The rows of the benchmark.
fn subjects(handles: &[*mut c_void]) -> Result<Vec<Subject>, String> {
    let mut subjects = Vec::new();
    let mut add = |function: &'static str, classes: Vec<Class>| -> Result<(), String> {
        for class in classes {
            let entries: Result<Vec<_>, _> = handles.iter().map(|&h| entry(h, function)).collect();
            subjects.push(Subject {
                function,
                class,
                entries: entries?,
            });
        }
        Ok(())
    };
    let expressions = bench_inputs::classes;
    let forms = || bench_forms::classes(&expressions()[0].files);
    add("normalize_to_semilinear", expressions())?;
    add("expr_value", expressions())?;
    let mut normalised = expressions();
    normalised.retain(|class| class.refusal == 0);
    for class in &mut normalised {
        for file in &mut class.files {
            *file = bench_forms::normalised(file);
        }
    }
    add("semilinear_value", normalised)?;
    for pass in PASSES {
        add(pass.name(), forms())?;
    }
    add("compute_partitions", forms())?;
    let mut first = expressions();
    first.truncate(1);
    add("run_passes", first)?;
    Ok(subjects)
}

impl Room {
    fn new() -> Room {
        let calls = (0..10).flat_map(|i| [1 + i % 5, RESULT_BYTES as u64]);
        Room {
            vars: bench_inputs::assignment(),
            calls: calls.collect(),
            sheet: vec![0; RESULT_BYTES],
            spare: vec![0; RESULT_BYTES],
            words: vec![0; RESULT_WORDS],
            numbers: [0; 3],
        }
    }

    fn call(&mut self, entry: Entry, input: &[u8]) -> u64 {
        let (bytes, len) = (input.as_ptr(), input.len());
        let (vars, vars_len) = (self.vars.as_ptr(), self.vars.len());
        let (sheet, sheet_len) = (self.sheet.as_mut_ptr(), self.sheet.len());
        let [first, second, third] = &mut self.numbers;
        // SAFETY: every pointer is valid for its length, and what is written overlaps nothing else.
        unsafe {
            match entry {
                Entry::Value(f) => f(bytes, len, vars, vars_len, first),
                Entry::Write(f) => f(bytes, len, sheet, sheet_len, first, second),
                Entry::Flatten(f) => f(bytes, len, sheet, sheet_len, first, second, third),
                Entry::Partition(f) => {
                    let (words, words_len) = (self.words.as_mut_ptr(), self.words.len());
                    f(bytes, len, words, words_len, first)
                }
                Entry::Run(f) => {
                    let (calls, calls_len) = (self.calls.as_ptr(), self.calls.len());
                    let (spare, spare_len) = (self.spare.as_mut_ptr(), self.spare.len());
                    f(
                        bytes, len, calls, calls_len, sheet, sheet_len, spare, spare_len, first,
                        second,
                    )
                }
            }
        }
    }

    /// All that a call gives, over slices and numbers that were filled before.
    fn answer(&mut self, entry: Entry, input: &[u8]) -> (u64, [u64; 3], Vec<u8>, Vec<u64>) {
        self.sheet.fill(1);
        self.words.fill(1);
        self.numbers.fill(1);
        let refusal = self.call(entry, input);
        (
            refusal,
            self.numbers,
            self.sheet.clone(),
            self.words.clone(),
        )
    }
}

impl Subject {
    /// How many answers of the first object after are others than before, those before with new heads.
    /// Such an answer must be the one that is wanted.
    fn compare(&self, split: usize, room: &mut Room) -> Result<usize, String> {
        let mut others = 0;
        for file in &self.class.files {
            let mut before = room.answer(self.entries[0], file);
            renew_heads(&mut before.2);
            let after = room.answer(self.entries[split], file);
            if before == after {
                continue;
            }
            let (refusal, [used, terms, _], out, _) = after;
            let given = |wanted: Written| {
                [wanted.refusal, wanted.used, wanted.terms] == [refusal, used, terms]
                    && wanted.out == out
            };
            if !self.wanted(file, room).is_some_and(given) {
                return Err(format!(
                    "{}, {}: the answers differ",
                    self.function, self.class.name
                ));
            }
            others += 1;
        }
        Ok(others)
    }

    /// What the Rust with the differences gives, where the function is a pass or runs a list of them.
    fn wanted(&self, file: &[u8], room: &Room) -> Option<Written> {
        let mut passes = PASSES.into_iter();
        match passes.find(|pass| pass.name() == self.function) {
            Some(pass) => Some(pass::answer(pass, file, RESULT_BYTES)),
            None if self.function == "run_passes" => {
                let case = list_cases::case(file.to_vec(), room.calls.clone());
                Some(list::answer(&case).written)
            }
            None => None,
        }
    }

    /// A row of the table, measured for at least `each`.
    fn row(&self, split: usize, each: Duration, room: &mut Room) -> String {
        let least = self.least(each, room);
        let sum = |times: &[f64]| times.iter().sum::<f64>();
        let places = |side: &[Vec<f64>]| {
            let sums: Vec<f64> = side.iter().map(|times| sum(times)).collect();
            let greatest = sums.iter().copied().fold(0.0, f64::max);
            greatest / sums.iter().copied().fold(f64::MAX, f64::min)
        };
        let best = |side: &[Vec<f64>]| -> Vec<f64> {
            let inputs = 0..self.class.files.len();
            let of_one = |i: usize| side.iter().map(|times| times[i]).fold(f64::MAX, f64::min);
            inputs.map(of_one).collect()
        };
        let (before, after) = least.split_at(split);
        let (old, new) = (best(before), best(after));
        let worst = new.iter().zip(&old).map(|(n, o)| n / o).fold(0.0, f64::max);
        let micros = |times: &[f64]| sum(times) / times.len() as f64 * 1e6;
        format!(
            "| `{}` | {} | {:.3} | {:.3} | {:.3} | {worst:.3} | {:.2} | {:.2} |",
            self.function,
            self.class.name,
            micros(&old),
            micros(&new),
            sum(&new) / sum(&old),
            places(before),
            places(after),
        )
    }

    /// The least seconds of a call, of each object and each input.
    fn least(&self, each: Duration, room: &mut Room) -> Vec<Vec<f64>> {
        let files = &self.class.files;
        let batch = if files.len() > 1 { 3e-5 } else { 5e-4 };
        let counts: Vec<u32> = files
            .iter()
            .map(|file| (batch / timed(4, self.entries[0], file, room)) as u32 + 1)
            .collect();
        let mut least = vec![vec![f64::MAX; files.len()]; self.entries.len()];
        let mut order: Vec<usize> = (0..self.entries.len()).collect();
        let began = Instant::now();
        while began.elapsed() < each {
            for (i, file) in files.iter().enumerate() {
                for &object in &order {
                    let entry = self.entries[object];
                    timed(counts[i] / 8 + 1, entry, file, room); // the input is learnt again
                    let time = timed(counts[i], entry, file, room);
                    least[object][i] = least[object][i].min(time);
                }
            }
            order.reverse();
        }
        least
    }
}

/// Puts the byte of new heads in those of a sheet: the archive before may write others there, the one
/// after may not.
fn renew_heads(sheet: &mut [u8]) {
    for record in sheet.chunks_exact_mut(RECORD_BYTES) {
        if record[0] == ATOM {
            record[1] = HEAD_BYTE;
        }
    }
}

/// The seconds of one of `count` calls.
fn timed(count: u32, entry: Entry, file: &[u8], room: &mut Room) -> f64 {
    let began = Instant::now();
    for _ in 0..count {
        room.call(entry, file);
    }
    began.elapsed().as_secs_f64() / f64::from(count)
}
