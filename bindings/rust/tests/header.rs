//! What this crate says of C is what `mscp.h` says: numbers, texts, and by the C compiler each field of each struct.

use std::collections::BTreeMap;
use std::fs;
use std::mem::{align_of, size_of};
use std::path::{Path, PathBuf};
use std::process::Command;

use mscp::{raw, BusKind, Connection, Error, Opcode, Picker};

/// The folder of `mscp.h`: the crate's own, as in a release, or that of the project around.
fn folder() -> PathBuf {
    let top = Path::new(env!("CARGO_MANIFEST_DIR"));
    let own = top.join("c");
    if own.exists() {
        own
    } else {
        top.join("../../include")
    }
}

fn header() -> String {
    fs::read_to_string(folder().join("mscp.h")).unwrap()
}

/// `NoCredit` as `NO_CREDIT`.
fn in_c(name: &str) -> String {
    let mut it = String::new();
    for letter in name.chars() {
        if letter.is_uppercase() && !it.is_empty() {
            it.push('_');
        }
        it.push(letter.to_ascii_uppercase());
    }
    it
}

/// The enumerators of an enum of the header, without `MSCP_`.
fn enumerators(name: &str) -> BTreeMap<String, i64> {
    let text = header();
    let from = text.find(&format!("enum mscp_{name} {{")).unwrap();
    let body = &text[from..from + text[from..].find("};").unwrap()];
    let of_line = |line: &str| -> Option<(String, i64)> {
        let (name, rest) = line.trim().strip_prefix("MSCP_")?.split_once(" = ")?;
        let number = rest.split(|it: char| it != '-' && !it.is_ascii_digit()).next()?;
        Some((name.into(), number.parse().ok()?))
    };
    body.lines().filter_map(of_line).collect()
}

/// These are all of the enum, behind what their names begin with in C.
fn are_those<T: std::fmt::Debug + Copy>(name: &str, prefix: &str, all: &[T], number: impl Fn(T) -> i64) {
    let ours: BTreeMap<_, _> =
        all.iter().map(|it| (format!("{prefix}{}", in_c(&format!("{it:?}"))), number(*it))).collect();
    assert_eq!(ours, enumerators(name));
}

#[test]
fn enums_are_those_of_c() {
    are_those("connection", "CONNECTION_", Connection::ALL, |it| it.number().into());
    are_those("picker", "", Picker::ALL, |it| it.number().into());
    are_those("opcode", "", Opcode::ALL, |it| it.number().into());
    are_those("bus", "BUS_", BusKind::ALL, |it| it.number().into());
}

/// All faults but those of scripts and of the words of packets.
#[test]
fn errors_are_the_faults_of_c() {
    let ours: BTreeMap<_, _> = Error::ALL.iter().map(|it| (in_c(&format!("{it:?}")), i64::from(it.status()))).collect();
    let theirs = enumerators("status").into_iter().filter(|it| it.1 < 0);
    let is_of_scripts = |name: &str| name.starts_with("SCRIPT_") || name.starts_with("WORD_");
    assert_eq!(ours, theirs.filter(|it| !is_of_scripts(&it.0)).collect());
    assert!(Error::ALL.iter().all(|it| Error::of_status(it.status()) == Some(*it)));
    let text = header();
    for error in Error::ALL {
        let line = format!("case MSCP_{}: return \"{}\";", in_c(&format!("{error:?}")), error.text());
        assert!(text.contains(&line), "{line}");
    }
}

#[test]
fn other_statuses_are_those_of_c() {
    use raw::status::*;
    let ours = [
        NOTHING,
        DONE,
        QUEUED,
        ANSWERED,
        BUSY,
        ENDED,
        FIRST,
        PROGRESS,
        LATE,
        NO_PROGRESS,
        LOST,
        MOVED_TOO_MUCH,
        REFUSED,
        NOW_AVAILABLE,
        ATTENTION,
        LOGGED,
        CREDITS,
        POLL,
        SILENT,
    ]
    .map(i64::from);
    let mut theirs: Vec<_> = enumerators("status").into_values().filter(|it| *it >= 0).collect();
    theirs.sort_unstable();
    assert_eq!(ours.as_slice(), theirs);
    let named = enumerators("status");
    assert_eq!(named["QUEUED"], i64::from(QUEUED));
    assert_eq!(named["LOST"], i64::from(LOST));
}

/// A number that the header defines.
fn defined(name: &str) -> u64 {
    let text = header();
    let line = text.lines().find(|it| it.starts_with(&format!("#define MSCP_{name} "))).unwrap().to_owned();
    let word = line.split_whitespace().nth(2).unwrap().trim_start_matches("UINT64_C(").trim_start_matches("UINT32_C(");
    let word = word.trim_end_matches([')', 'u']);
    match word.strip_prefix("0x") {
        Some(digits) => u64::from_str_radix(digits, 16).unwrap(),
        None => word.parse().unwrap(),
    }
}

#[test]
fn numbers_are_those_of_c() {
    let numbers = [
        ("CREDITS_MAX", mscp::CREDITS_MAX),
        ("UNITS_MAX", mscp::UNITS_MAX),
        ("MESSAGE_MIN", mscp::MESSAGE_MIN),
        ("MESSAGE_MAX", mscp::MESSAGE_MAX),
        ("PACKET_MAX", mscp::PACKET_MAX),
        ("BLOCK", mscp::BLOCK),
        ("SAVED_MAX", mscp::SAVED_MAX),
        ("HOST_SAVED_MAX", mscp::HOST_SAVED_MAX),
        ("PORT_SAVED_MAX", mscp::PORT_SAVED_MAX),
        ("DRIVER_SAVED_MAX", mscp::DRIVER_SAVED_MAX),
        ("SIZE", raw::SIZE),
        ("HOST_SIZE", raw::HOST_SIZE),
        ("PORT_SIZE", raw::PORT_SIZE),
        ("DRIVER_SIZE", raw::DRIVER_SIZE),
    ];
    for (name, number) in numbers {
        assert_eq!(defined(name), number as u64, "{name}");
    }
    assert_eq!(defined("ROOM"), raw::ROOM);
    assert_eq!(defined("HOST_ROOM"), raw::HOST_ROOM);
    assert_eq!(defined("PORT_ROOM"), raw::PORT_ROOM);
    assert_eq!(defined("DRIVER_ROOM"), raw::DRIVER_ROOM);
    assert_eq!(defined("HEAD"), size_of::<raw::Handle>() as u64);
    assert_eq!(defined("ALIGN"), align_of::<raw::Handle>() as u64);
    assert_eq!(defined("VERSION"), u64::from(mscp::VERSION));
}

/// The library that is linked is of this version, and takes no more memory than there is.
#[test]
fn library_is_of_this_version() {
    assert_eq!(mscp::version(), mscp::VERSION);
    assert!(mscp::fits(mscp::VERSION) && mscp::fits(mscp::VERSION ^ 0x7F) && mscp::fits(mscp::VERSION ^ 0x0100));
    assert!(!mscp::fits(mscp::VERSION ^ 0x01_0000));
    // SAFETY: these calls read nothing.
    unsafe {
        assert!(raw::mscp_size() <= raw::SIZE && raw::mscp_align() <= align_of::<raw::Handle>());
        assert!(raw::mscp_host_size() <= raw::HOST_SIZE && raw::mscp_host_align() <= align_of::<raw::Handle>());
        assert!(raw::mscp_port_size() <= raw::PORT_SIZE && raw::mscp_port_align() <= align_of::<raw::Handle>());
        assert!(raw::mscp_save_size() <= mscp::SAVED_MAX);
        assert!(raw::mscp_host_save_size() <= mscp::HOST_SAVED_MAX);
        assert!(raw::mscp_port_save_size() <= mscp::PORT_SAVED_MAX);
        assert!(raw::mscp_driver_size() <= raw::DRIVER_SIZE && raw::mscp_driver_align() <= align_of::<raw::Handle>());
        assert!(raw::mscp_driver_save_size() <= mscp::DRIVER_SAVED_MAX);
    }
}

/// A line for each struct, with its size, and for each of its fields, with its offset and size.
macro_rules! layouts {
    ($($name:ident $in_c:literal { $($field:ident)* })*) => {
        [$((
            $in_c,
            size_of::<raw::$name>(),
            vec![$({
                let it = std::mem::MaybeUninit::<raw::$name>::uninit();
                let base = it.as_ptr();
                // SAFETY: no field is read: only its address is taken, inside of `it`.
                let at = unsafe { std::ptr::addr_of!((*base).$field) };
                (stringify!($field), at as usize - base as usize, size_of_pointed(at))
            }),*],
        )),*]
    };
}

fn size_of_pointed<T>(_: *const T) -> usize {
    size_of::<T>()
}

#[test]
fn structs_are_those_of_c() {
    let layouts = layouts! {
        Handle "mscp" { at address length mark }
        Unit "mscp_unit" { id size media serial number track group cylinder }
        Limits "mscp_limits" { id budget credits second longest timeout }
        Hardware "mscp_hardware" { bus model software version }
        Medium "mscp_medium" { size media is_protected is_removable }
        Sent "mscp_sent" { reference aborted has_aborted }
        Packet "mscp_packet" { length bytes }
        Upcoming "mscp_upcoming" { serial reference bytes lbn done weight unit opcode touches connection }
        Report "mscp_report" { reference lbn seek unit status touched started ended connection }
        Waiting "mscp_waiting" { reference figure connection }
        Holder "mscp_holder" { reference connection fences overdrawn }
        News "mscp_news" { figure reference moved unit status code }
        Heard "mscp_heard" { figure reference moved asked unit status code opcode credits }
        Asked "mscp_asked" { reference unit opcode bytes }
        Watch "mscp_watch" { timeout waited silent }
        Command "mscp_command" { reference other bytes lbn buffer unit modifiers version flags timeout opcode }
        End "mscp_end" {
            id reference other figure moved media size serial unit status track group cylinder timeout code
        }
        Action "mscp_action" { serial address count block unit vector kind opcode bytes }
        State "mscp_state" { word stage is_held_back }
        Volume "mscp_volume" { size media is_there is_protected is_protected_by_host is_online is_removable }
    };
    let mut source =
        String::from("#include \"mscp.h\"\n#define IS(it, number) typedef char is[(it) == (number) ? 1 : -1]\n");
    for (name, size, fields) in &layouts {
        source += &format!("IS(sizeof(struct {name}), {size});\n");
        for (field, offset, size) in fields {
            source += &format!("IS(offsetof(struct {name}, {field}), {offset});\n");
            if *field != "at" {
                source += &format!("IS(sizeof(((struct {name} *)0)->{field}), {size});\n");
            }
        }
    }
    let file = std::env::temp_dir().join(format!("mscp-layout-{}.c", std::process::id()));
    fs::write(&file, source).unwrap();
    let compiler = std::env::var("CC").unwrap_or_else(|_| "cc".into());
    let mut words = compiler.split_whitespace();
    let told = Command::new(words.next().unwrap())
        .args(words)
        .args(["-std=c11", "-fsyntax-only", "-I"])
        .arg(folder())
        .arg(&file)
        .output()
        .unwrap();
    fs::remove_file(file).unwrap();
    assert!(told.status.success(), "{}", String::from_utf8_lossy(&told.stderr));
}
