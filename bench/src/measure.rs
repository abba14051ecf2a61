//! How calls are measured: times, instructions by callgrind, and stack.
use std::env::current_exe;
use std::ffi::c_void;
use std::fs;
use std::hint::black_box;
use std::process::{Command, Stdio};
use std::time::{Duration, Instant};

/// A call with all that it needs.
pub type Call = Box<dyn FnMut()>;

/// How long a round times each call, as nearly as a whole number of calls gives it.
const ROUND: Duration = Duration::from_micros(300);

fn time(calls: u32, call: &mut dyn FnMut()) -> Duration {
    let start = Instant::now();
    for _ in 0..calls {
        call();
    }
    start.elapsed()
}

/// A call that is timed, and its times so far in nanoseconds.
struct Timed<'a> {
    call: &'a mut Call,
    calls: u32,
    times: Vec<f64>,
}

impl<'a> Timed<'a> {
    fn new(call: &'a mut Call) -> Timed<'a> {
        time(3, call);
        let each = time(3, call) / 3;
        let calls = ROUND.as_nanos() / each.as_nanos().max(1);
        Timed { call, calls: calls.clamp(1, 100_000) as u32, times: Vec::new() }
    }

    fn round(&mut self) {
        let spent = time(self.calls, self.call);
        self.times.push(spent.as_nanos() as f64 / f64::from(self.calls));
    }

    fn median(mut self) -> f64 {
        self.times.sort_by(f64::total_cmp);
        self.times[self.times.len() / 2]
    }
}

/// The median time of each call, in nanoseconds, group by group. A round times each call of a group once, so that a busy moment
/// meets all of them; a run has so many rounds of every group.
pub fn medians(runs: u32, rounds: u32, groups: Vec<Vec<&mut Call>>) -> Vec<Vec<f64>> {
    let timed = |group: Vec<_>| group.into_iter().map(Timed::new).collect();
    let mut groups: Vec<Vec<Timed>> = groups.into_iter().map(timed).collect();
    for _ in 0..runs {
        for group in &mut groups {
            (0..rounds).for_each(|_| group.iter_mut().for_each(Timed::round));
        }
    }
    groups.into_iter().map(|group| group.into_iter().map(Timed::median).collect()).collect()
}

/// The median times of a few calls beside each other.
pub fn medians_of<const N: usize>(mut calls: [Call; N]) -> [f64; N] {
    let mut group = medians(1, 101, vec![calls.iter_mut().collect()]).remove(0).into_iter();
    std::array::from_fn(|_| group.next().expect("a median for each"))
}

/// One pass over octets as a yardstick, an octet at a time: the second program's check.
pub fn pass(octets: &'static [u8]) -> Call {
    Box::new(move || {
        black_box(&second::table::block_check(black_box(octets)));
    })
}

/// The calls whose instructions callgrind counts: it collects in this function alone, and writes a file at each end of it.
#[no_mangle]
#[inline(never)]
pub fn counted(calls: u32, call: &mut dyn FnMut()) {
    time(calls, call);
}

/// Under callgrind: each call, after one that is not counted; prints how many are. Long calls are counted once.
pub fn run_counted(calls: Vec<&mut Call>) {
    for call in calls {
        let long = time(1, call) > Duration::from_millis(20);
        let times = if long { 1 } else { 10 };
        counted(times, call);
        println!("{times}");
    }
}

/// Instructions of each call that this program makes under callgrind where it is given these words; none without valgrind.
pub fn instructions(words: &[&str]) -> Option<Vec<u64>> {
    let folder = std::env::temp_dir().join(format!("bench-{}", std::process::id()));
    fs::create_dir_all(&folder).ok()?;
    let out = folder.join("out");
    let mut valgrind = Command::new("valgrind");
    valgrind.args(["--tool=callgrind", "--toggle-collect=counted", "--dump-after=counted"]);
    valgrind.arg(format!("--callgrind-out-file={}", out.display()));
    let ran = valgrind.arg(current_exe().ok()?).args(words).stderr(Stdio::null()).output();
    let counts = ran.ok().filter(|ran| ran.status.success()).and_then(|ran| {
        let calls = String::from_utf8(ran.stdout).ok()?;
        let calls = calls.lines().map(|line| line.parse::<u64>().ok());
        calls.enumerate().map(|(k, calls)| Some(collected(&format!("{}.{}", out.display(), k + 1))? / calls?)).collect()
    });
    fs::remove_dir_all(&folder).ok();
    counts
}

/// The instructions that a file of callgrind's has in all.
fn collected(path: &str) -> Option<u64> {
    let text = fs::read_to_string(path).ok()?;
    let total = text.lines().find_map(|line| line.strip_prefix("totals: ").or(line.strip_prefix("summary: ")))?;
    total.trim().parse().ok()
}

extern "C" {
    fn stack_of(work: extern "C" fn(*mut c_void), given: *mut c_void, paint: u8) -> usize;
}

extern "C" fn run(given: *mut c_void) {
    // What `stack` gives, and it waits for the thread that runs this.
    let call = unsafe { &mut *given.cast::<&mut Call>() };
    call();
}

/// The stack that a call takes, in octets, with that of the closure around it.
pub fn stack(call: &mut Call) -> usize {
    let mut given = call;
    let given: *mut &mut Call = &mut given;
    // An octet of the stack may be written as it was painted: the larger of two paints.
    let painted = |paint| unsafe { stack_of(run, given.cast(), paint) };
    painted(0xA5).max(painted(0x5A))
}
