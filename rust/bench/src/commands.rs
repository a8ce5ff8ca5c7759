//! Whole commands of the tool on files of a disk, beside what people run else: every time is of processes, from start to end.

use crate::image::{up, Image, GRAIN};
use crate::report::{Figure, Report};
use crate::{agree, Outcome, Setup, SEED};
use compare::rng::Rng;
use std::ffi::{OsStr, OsString};
use std::fs::{read, read_to_string, remove_file, write};
use std::path::{Path, PathBuf};
use std::process::{Command, Stdio};
use std::time::{Duration, Instant};

/// One way to do the work: programs and their words, one after the other.
struct Way {
    name: &'static str,
    steps: Vec<Vec<OsString>>,
}

impl Way {
    fn new(name: &'static str, steps: &[&[&OsStr]]) -> Way {
        let owned = |step: &&[&OsStr]| step.iter().map(|word| word.to_os_string()).collect();
        Way {
            name,
            steps: steps.iter().map(owned).collect(),
        }
    }

    fn time(&self) -> Result<Taken, String> {
        let (start, worked) = (Instant::now(), worked()?);
        self.steps.iter().try_for_each(|step| run(step))?;
        Ok(Taken {
            time: start.elapsed(),
            processor: self::worked()? - worked,
        })
    }
}

/// By the clock, and by the processors, the kernel's work counted in.
#[derive(Clone, Copy)]
struct Taken {
    time: Duration,
    processor: Duration,
}

impl Taken {
    const MOST: Taken = Taken {
        time: Duration::MAX,
        processor: Duration::MAX,
    };

    fn least(self, other: Taken) -> Taken {
        Taken {
            time: self.time.min(other.time),
            processor: self.processor.min(other.processor),
        }
    }
}

/// The processor time of all programs that were run up to now: fields 16 and 17 of /proc/self/stat, counted from 1, in
/// hundredths of a second.
fn worked() -> Result<Duration, String> {
    let stat = read_to_string("/proc/self/stat").map_err(|error| error.to_string())?;
    // The second field is the program's name in brackets, and may hold spaces.
    let after = stat.rsplit(')').next().unwrap_or_default();
    let fields = after.split_whitespace().skip(13).take(2);
    let ticks: u64 = fields.filter_map(|field| field.parse::<u64>().ok()).sum();
    Ok(Duration::from_millis(10 * ticks))
}

fn run(words: &[OsString]) -> Result<(), String> {
    let program = words[0].to_string_lossy();
    let status = Command::new(&words[0])
        .args(&words[1..])
        .stdin(Stdio::null())
        .stdout(Stdio::null())
        .status();
    match status {
        Ok(status) if status.success() => Ok(()),
        Ok(status) => Err(format!("{program} failed, {status}")),
        Err(_) => Err(format!("{program} is not there")),
    }
}

/// The files of all measures.
struct Files {
    tool: PathBuf,
    /// Every grain stored, and half of them at random above it.
    disk: PathBuf,
    upper: PathBuf,
    /// The disk's bytes as they are read.
    raw: PathBuf,
    out: PathBuf,
}

impl Files {
    fn new(setup: &Setup, mib: u64) -> Result<Files, Box<dyn std::error::Error>> {
        let tool = Path::new(env!("CARGO_MANIFEST_DIR")).join("../tool/target/release/anhkhovet");
        if !tool.exists() {
            let how = "rust/cargo --debian build --release --manifest-path rust/tool/Cargo.toml";
            return Err(format!("the tool is not built: {how}").into());
        }
        let capacity = mib << 11;
        let disk = Image::new(capacity, "disk.vmdk", None, |_| true);
        let mut rng = Rng::new(SEED, 4);
        let upper = Image::new(capacity, "upper.vmdk", Some("disk.vmdk"), |_| rng.one_in(2));
        let files = Files {
            tool,
            disk: setup.folder.path("disk.vmdk"),
            upper: setup.folder.path("upper.vmdk"),
            raw: setup.folder.path("raw"),
            out: setup.folder.path("out.vmdk"),
        };
        let bytes = disk.filled(&mut Rng::new(SEED, 5));
        let grains = (0..up(capacity, GRAIN)).filter_map(|grain| disk.grain(&bytes, grain));
        write(&files.raw, grains.collect::<Vec<_>>().concat())?;
        write(&files.disk, bytes)?;
        write(&files.upper, upper.filled(&mut Rng::new(SEED, 6)))?;
        Ok(files)
    }

    /// A step of the tool, with these words before and after the files.
    fn tool<'a>(&'a self, words: &[&'a OsStr]) -> Vec<&'a OsStr> {
        [&[self.tool.as_os_str()], words].concat()
    }
}

/// Times all ways in turn, so that what the disk does meanwhile falls on each alike. The first way is ours.
fn race(setup: &Setup, report: &mut Report, call: &str, label: &str, out: &Path, ways: &[Way]) {
    setup.progress(&format!("{call}, whole command"));
    let settled = Way::new("", &[&["sync".as_ref()]]);
    let mut least: Vec<Result<Taken, String>> = ways.iter().map(|_| Ok(Taken::MOST)).collect();
    for _ in 0..setup.rounds {
        for (way, least) in ways.iter().zip(&mut least) {
            // Not there in the first round; nothing that an earlier way left is written in a later one's time.
            let _ = remove_file(out);
            let timed = settled.time().and_then(|_| way.time());
            *least = least.clone().and_then(|best| Ok(best.least(timed?)));
        }
    }
    let figure =
        |taken: &Result<Taken, String>| taken.clone().map(|taken| Figure::whole(taken.time));
    report.measure(call, label, &figure(&least[0]));
    for (way, taken) in ways.iter().zip(&least).skip(1) {
        report.against(way.name, &figure(taken));
    }
    note(report, call, ways, &least);
}

/// Processor times below a table: where others use the machine too, they say more than the clock.
fn note(report: &mut Report, call: &str, ways: &[Way], least: &[Result<Taken, String>]) {
    let told = ways.iter().zip(least).filter_map(|(way, taken)| {
        let processor = taken.as_ref().ok()?.processor;
        // The system counts in hundredths.
        let enough = processor >= Duration::from_millis(50);
        enough.then(|| format!("{} {}", way.name, Figure::whole(processor)))
    });
    let told: Vec<String> = told.collect();
    if !told.is_empty() {
        report.note(format!("Processor time of {call}: {}.", told.join("; ")));
    }
}

/// The kind of file system that a folder is on.
fn file_system(folder: &Path) -> String {
    let mounts = read_to_string("/proc/self/mounts").unwrap_or_default();
    let found = mounts.lines().filter_map(|line| {
        let mut words = line.split(' ').skip(1);
        let (place, kind) = (words.next()?, words.next()?);
        folder.starts_with(place).then_some((place.len(), kind))
    });
    // The last of equal ones is mounted over the others.
    found
        .max_by_key(|(length, _)| *length)
        .map_or("a file system not known", |(_, kind)| kind)
        .to_string()
}

pub fn measure(setup: &Setup, report: &mut Report) -> Outcome {
    let mib = if setup.quick { 16 } else { 512 };
    let files = Files::new(setup, mib)?;
    let kind = file_system(&setup.folder.path(""));
    let label = format!("{mib} MiB, every grain stored, on {kind}");
    reading(setup, report, &label, &files);
    let wide: &OsStr = files.disk.as_os_str();
    let ours = [
        OsStr::new("normal"),
        wide,
        "-o".as_ref(),
        files.out.as_os_str(),
    ];
    writing(setup, report, &files, ("normal", &label), &ours)?;
    let label = format!("{mib} MiB result, half of it from each of two layers, on {kind}");
    let ours = [
        OsStr::new("collapse"),
        wide,
        files.upper.as_os_str(),
        "-o".as_ref(),
        files.out.as_os_str(),
    ];
    writing(setup, report, &files, ("collapse", &label), &ours)
}

fn reading(setup: &Setup, report: &mut Report, label: &str, files: &Files) {
    let (disk, raw, qemu) = (
        files.disk.as_os_str(),
        files.raw.as_os_str(),
        OsStr::new("qemu-img"),
    );
    let mut race = |call: &'static str, rival, words: &[&OsStr]| {
        let ours = files.tool(&[call.as_ref(), disk]);
        let ways = [Way::new("the tool", &[&ours]), Way::new(rival, &[words])];
        self::race(setup, report, call, label, &files.out, &ways);
    };
    race("check", "`qemu-img check`", &[qemu, "check".as_ref(), disk]);
    race("map", "`qemu-img map`", &[qemu, "map".as_ref(), disk]);
    let openssl = ["openssl", "dgst", "-sha256"].map(OsStr::new);
    race(
        "digest",
        "`openssl dgst -sha256` of the raw bytes",
        &[&openssl[..], &[raw]].concat(),
    );
}

/// A command that writes, beside a copy of the same bytes and qemu-img's conversion of the same disk.
fn writing(
    setup: &Setup,
    report: &mut Report,
    files: &Files,
    (call, label): (&str, &str),
    words: &[&OsStr],
) -> Outcome {
    let ours = files.tool(words);
    let result = setup.folder.path("result.vmdk");
    let _ = remove_file(&files.out);
    Way::new("the tool", &[&ours]).time()?;
    std::fs::rename(&files.out, &result)?;
    right(files, call, &result)?;
    let top = if call == "normal" {
        &files.disk
    } else {
        &files.upper
    };
    let ways = ways(&ours, &result, top, files.out.as_os_str());
    race(setup, report, call, label, &files.out, &ways);
    remove_file(&result)?;
    Ok(())
}

/// The tool syncs what it writes. The others do not, and are timed with a sync and without.
fn ways(ours: &[&OsStr], result: &Path, top: &Path, out: &OsStr) -> [Way; 5] {
    let copy = ["cp".as_ref(), result.as_os_str(), out];
    let [qemu, convert, to, format] = ["qemu-img", "convert", "-O", "vmdk"].map(OsStr::new);
    let convert = [qemu, convert, to, format, top.as_os_str(), out];
    let sync = ["sync".as_ref(), out];
    [
        Way::new("the tool", &[ours]),
        Way::new(
            "`cp` of the same bytes, then `sync` of the copy",
            &[&copy, &sync],
        ),
        Way::new("`cp` alone", &[&copy]),
        Way::new(
            "`qemu-img convert`, then `sync` of its output",
            &[&convert, &sync],
        ),
        Way::new("`qemu-img convert` alone", &[&convert]),
    ]
}

/// A time of a wrong result is no figure.
fn right(files: &Files, call: &str, result: &Path) -> Outcome {
    let disk = read(&files.disk)?;
    let room = 2 * disk.len();
    let expected = match call {
        "normal" => plain::normal(&disk, room),
        _ => plain::collapse(&disk, &read(&files.upper)?, room),
    };
    let expected = expected.map_err(|refusal| format!("{refusal:?}"))?;
    agree(call, &(read(result)? == expected), &true)
}

#[test]
fn a_folder_has_the_file_system_that_is_mounted_nearest() {
    assert_eq!(file_system(Path::new("/proc/self")), "proc");
}
