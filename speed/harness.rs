// Times the static library `speed` beside a plain walk of the same table: how long the proved guard and the plain one take
// for a letter, over the same letters, and how long synthesis takes for a table. `./measure` builds and runs it with the
// folder `examples` as its argument.
use std::hint::black_box;
use std::path::Path;
use std::time::{Duration, Instant};

extern "C" {
    // How many letters the proved guard writes under the table of a property file with a cap.
    fn speed_guard(
        file: *const u8,
        file_length: usize,
        cap: u32,
        offers: *const u8,
        offers_length: usize,
        table: *mut u16,
        table_length: usize,
        work: *mut u16,
        work_length: usize,
    ) -> usize;

    // How many rows the table of a property file has, 0 where it has none.
    fn speed_synthesis(
        file: *const u8,
        file_length: usize,
        table: *mut u16,
        table_length: usize,
        work: *mut u16,
        work_length: usize,
    ) -> usize;
}

// How many numbers a kind of letters has; the tick and the end are kinds of one letter each, and every smaller number than
// the tick is a letter too.
const NUMBERS_A_KIND: u8 = 32;
const TICK: u8 = 4 * NUMBERS_A_KIND;
const END: u8 = 5 * NUMBERS_A_KIND;

// What a cell holds where its letter is not admitted.
const NO_ROW: u16 = 65_535;

// The columns after the letters: owed, span and lead.
const LAST_COLUMNS: usize = 3;

const MOST_ACTS: u16 = 4_096;
const OUTPUT_BYTES: usize = 256;

// The cap of the plate property, and its letters in order: four commands, the tick and the end.
const CAP: u8 = 255;
const PLATE_LETTERS: [u8; 6] = [96, 97, 98, 99, TICK, END];

// What is offered, each as often as it stands here: the plate's letters, a sensor's letter that the plate does not
// declare, and a byte that is no letter.
const MIX: [u8; 10] = [96, 97, 98, 99, TICK, END, 97, 98, 5, 200];

const OFFERS: usize = 2_000_000;

// An odd number of runs, so that there is a middle one.
const RUNS: usize = 21;

// How long a run of synthesis makes one table after the other.
const RUN: Duration = Duration::from_millis(30);

const TABLE_NUMBERS: usize = 35_840;
const WORK_NUMBERS: usize = 4_096;

// Memories that are lent to the library.
struct Memory {
    table: Vec<u16>,
    work: Vec<u16>,
}

impl Memory {
    fn new() -> Memory {
        Memory {
            table: vec![0; TABLE_NUMBERS],
            work: vec![0; WORK_NUMBERS],
        }
    }

    fn synthesize(&mut self, file: &[u8]) -> usize {
        let (table, work) = (&mut self.table, &mut self.work);
        // Sound: each pointer and length come from one slice, and no two of the slices overlap.
        unsafe {
            speed_synthesis(
                file.as_ptr(),
                file.len(),
                table.as_mut_ptr(),
                table.len(),
                work.as_mut_ptr(),
                work.len(),
            )
        }
    }

    fn guard(&mut self, file: &[u8], offers: &[u8]) -> usize {
        let (table, work) = (&mut self.table, &mut self.work);
        // Sound, as above.
        unsafe {
            speed_guard(
                file.as_ptr(),
                file.len(),
                u32::from(CAP),
                offers.as_ptr(),
                offers.len(),
                table.as_mut_ptr(),
                table.len(),
                work.as_mut_ptr(),
                work.len(),
            )
        }
    }
}

enum Refusal {
    NotLive,
    NoLetter,
    EndOffered,
    Full,
    Short,
}

// A table with a cap, walked by hand. A guard keeps its row and the letters left beside one another.
struct Plain<'a> {
    letters: &'a [u8],
    cells: &'a [u16],
    rows: u16,
}

struct Guard {
    row: u16,
    left: u8,
    acts: u16,
}

impl Plain<'_> {
    fn number(&self, row: u16, column: usize) -> u16 {
        self.cells[usize::from(row) * (self.letters.len() + LAST_COLUMNS) + column]
    }

    fn owed(&self, row: u16) -> u16 {
        self.number(row, self.letters.len())
    }

    fn lead(&self, row: u16) -> u8 {
        self.number(row, self.letters.len() + 2) as u8
    }

    fn is_live(&self, guard: &Guard) -> bool {
        guard.row < self.rows && self.owed(guard.row) <= u16::from(guard.left)
    }

    // The row after a letter and the letters then left, where the table and the cap admit it.
    fn following(&self, guard: &Guard, letter: u8) -> Option<(u16, u8)> {
        let column = self
            .letters
            .iter()
            .position(|declared| *declared == letter)?;
        let row = self.number(guard.row, column);
        if row == NO_ROW {
            return None;
        }
        if letter == END {
            return Some((row, CAP));
        }
        let left = guard.left.checked_sub(1)?;
        (self.owed(row) <= u16::from(left)).then_some((row, left))
    }

    // Offers a letter other than the end; answers whether it was passed.
    fn act(&self, guard: &mut Guard, letter: u8, out: &mut [u8]) -> Result<bool, Refusal> {
        if !self.is_live(guard) {
            return Err(Refusal::NotLive);
        }
        if letter > TICK && letter != END {
            return Err(Refusal::NoLetter);
        }
        if letter == END {
            return Err(Refusal::EndOffered);
        }
        if guard.acts >= MOST_ACTS {
            return Err(Refusal::Full);
        }
        let Some((row, left)) = self.following(guard, letter) else {
            guard.acts += 1;
            return Ok(false);
        };
        if out.is_empty() {
            return Err(Refusal::Short);
        }
        out[0] = letter;
        *guard = Guard {
            row,
            left,
            acts: guard.acts + 1,
        };
        Ok(true)
    }

    // Offers the end: writes what is owed and the end, begins the next cycle and answers how many letters it wrote.
    fn close(&self, guard: &mut Guard, out: &mut [u8]) -> Result<usize, Refusal> {
        if !self.is_live(guard) {
            return Err(Refusal::NotLive);
        }
        let owed = usize::from(self.owed(guard.row));
        if owed >= out.len() {
            return Err(Refusal::Short);
        }
        for slot in &mut out[..owed] {
            *slot = self.lead(guard.row);
            if let Some((row, left)) = self.following(guard, *slot) {
                (guard.row, guard.left) = (row, left);
            }
        }
        out[owed] = END;
        if let Some((row, left)) = self.following(guard, END) {
            (guard.row, guard.left) = (row, left);
        }
        guard.acts = 0;
        Ok(owed + 1)
    }

    // How many letters a guard writes.
    #[inline(never)]
    fn count(&self, offers: &[u8]) -> usize {
        let mut out = [0; OUTPUT_BYTES];
        let mut guard = Guard {
            row: 0,
            left: CAP,
            acts: 0,
        };
        let mut count = 0;
        for &letter in offers {
            count += if letter == END {
                self.close(&mut guard, &mut out).unwrap_or(0)
            } else {
                usize::from(self.act(&mut guard, letter, &mut out).unwrap_or(false))
            };
        }
        // So that the outputs are written.
        black_box(&out);
        count
    }
}

// So many pseudo-random letters of the mix, the same in each run.
fn offers() -> Vec<u8> {
    let mut state = 1_u64;
    let mut next = || {
        state = state
            .wrapping_mul(6_364_136_223_846_793_005)
            .wrapping_add(1_442_695_040_888_963_407);
        MIX[(state >> 33) as usize % MIX.len()]
    };
    (0..OFFERS).map(|_| next()).collect()
}

// The nanoseconds that something takes.
fn nanoseconds(work: impl FnOnce()) -> f64 {
    let begun = Instant::now();
    work();
    begun.elapsed().as_nanos() as f64
}

fn middle(mut times: Vec<f64>) -> f64 {
    times.sort_by(f64::total_cmp);
    times[times.len() / 2]
}

fn read(examples: &Path, name: &str) -> Vec<u8> {
    std::fs::read(examples.join(name)).unwrap_or_else(|error| panic!("{name}: {error}"))
}

// Prints how long a letter takes. The runs of the two guards alternate, so that both meet the same load of the machine; the
// proved one makes its table anew in each run, which adds less than a hundredth of a nanosecond to a letter.
fn time_guards(file: &[u8]) {
    let offers = offers();
    let mut memory = Memory::new();
    let rows = memory.synthesize(file);
    let cells = memory.table.clone();
    let plain = Plain {
        letters: &PLATE_LETTERS,
        cells: &cells,
        rows: rows as u16,
    };
    let (mut proved_times, mut plain_times) = (Vec::new(), Vec::new());
    let (mut proved_count, mut plain_count) = (0, 0);
    for _ in 0..RUNS {
        proved_times.push(nanoseconds(|| {
            proved_count = memory.guard(file, black_box(&offers))
        }));
        plain_times.push(nanoseconds(|| {
            plain_count = plain.count(black_box(&offers))
        }));
        assert_eq!(
            proved_count, plain_count,
            "the guards wrote different numbers of letters"
        );
    }
    let proved = middle(proved_times) / OFFERS as f64;
    let plain = middle(plain_times) / OFFERS as f64;
    println!(
        "guard under the plate's table with a cap of {CAP}, {OFFERS} letters offered and {proved_count} written by each, the middle of {RUNS} runs:"
    );
    println!("  proved guard      {proved:6.1} nanoseconds a letter");
    println!("  plain table walk  {plain:6.1} nanoseconds a letter");
    println!(
        "  ratio             {:6.2} (the aim is at most 1.5)",
        proved / plain
    );
}

// The microseconds that a table takes, on average in one run.
fn microseconds_a_table(memory: &mut Memory, file: &[u8]) -> f64 {
    let begun = Instant::now();
    let mut tables = 0;
    while tables == 0 || begun.elapsed() < RUN {
        black_box(memory.synthesize(black_box(file)));
        tables += 1;
    }
    begun.elapsed().as_nanos() as f64 / 1_000.0 / f64::from(tables)
}

// Prints how long the table of a file takes.
fn time_synthesis(examples: &Path, name: &str) {
    let file = read(examples, name);
    let mut memory = Memory::new();
    let rows = memory.synthesize(&file);
    let times = (0..RUNS).map(|_| microseconds_a_table(&mut memory, &file));
    println!(
        "  {name:20} {rows:5} rows {:10.1} microseconds",
        middle(times.collect())
    );
}

fn main() {
    let argument = std::env::args()
        .nth(1)
        .expect("the folder of the examples is wanted");
    let examples = Path::new(&argument);
    time_guards(&read(examples, "plate/rule.bin"));
    println!("synthesis of a table, the middle of {RUNS} runs:");
    for name in [
        "plate/rule.bin",
        "large/wide.bin",
        "large/nested.bin",
        "large/rounds.bin",
        "large/products.bin",
        "large/deep.bin",
    ] {
        time_synthesis(examples, name);
    }
}
