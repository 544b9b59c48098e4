//! The command writes what the library packs, reads it again, and names the line or the file of a fault.

use std::collections::BTreeMap;
use std::fs::{self, File};
use std::io::{self, Write};
use std::os::unix::fs::{PermissionsExt, symlink};
use std::path::{Path, PathBuf};
use std::process::{Command, Output, Stdio};
use tinystr::TinyAsciiStr;
use tinystr::hashed::{pack_hashed, pack_hashed_map};
use tinystr::packed::{pack_map, pack_sorted};

const TINYSTR_TABLE: &str = env!("CARGO_BIN_EXE_tinystr-table");

fn outcome(done: Output) -> (i32, String, String) {
    let [out, message] = [done.stdout, done.stderr].map(|it| String::from_utf8(it).unwrap());
    (done.status.code().unwrap(), out, message)
}

/// A device on which each write fails, as on a full disk.
fn full() -> File {
    File::options().write(true).open("/dev/full").unwrap()
}

/// A new folder of a test's own, in which its commands run. It is removed at the end.
struct Folder(PathBuf);

impl Folder {
    fn new(name: &str) -> Self {
        let path = Path::new(env!("CARGO_TARGET_TMPDIR")).join(name);
        if path.exists() {
            fs::remove_dir_all(&path).unwrap(); // of a run that was killed
        }
        fs::create_dir(&path).unwrap();
        Folder(path)
    }

    fn write(&self, name: &str, text: impl AsRef<[u8]>) {
        fs::write(self.0.join(name), text).unwrap();
    }

    fn read(&self, name: &str) -> Vec<u8> {
        fs::read(self.0.join(name)).unwrap()
    }

    fn names(&self) -> Vec<String> {
        let mut names: Vec<_> = fs::read_dir(&self.0).unwrap().map(|it| it.unwrap().file_name().into_string().unwrap()).collect();
        names.sort();
        names
    }

    fn command(&self, line: &str) -> Command {
        let mut command = Command::new(TINYSTR_TABLE);
        command.current_dir(&self.0).args(line.split(' '));
        command
    }

    /// The status of a command line, what it prints, and its message.
    fn run(&self, line: &str) -> (i32, String, String) {
        outcome(self.command(line).output().unwrap())
    }

    /// As `run`, with a limit of `ulimit`.
    fn run_limited(&self, limit: &str, line: &str) -> (i32, String, String) {
        let script = format!("trap '' XFSZ && ulimit {limit} && exec \"$0\" \"$@\"");
        let mut shell = Command::new("sh");
        shell.current_dir(&self.0).args(["-c", &script, TINYSTR_TABLE]).args(line.split(' '));
        outcome(shell.output().unwrap())
    }

    /// As `run`, with this standard input.
    fn run_reading(&self, input: &str, line: &str) -> (i32, String, String) {
        let mut child = self.command(line).stdin(Stdio::piped()).stdout(Stdio::piped()).stderr(Stdio::piped()).spawn().unwrap();
        child.stdin.take().unwrap().write_all(input.as_bytes()).unwrap();
        outcome(child.wait_with_output().unwrap())
    }

    /// What a command line that succeeds prints.
    fn printed(&self, line: &str) -> String {
        let (status, out, message) = self.run(line);
        assert_eq!((status, message.as_str()), (0, ""), "{line}");
        out
    }

    /// A command line fails with this status and message, after it has printed something.
    fn fails(&self, line: &str, status: i32, out: &str, message: &str) {
        assert_eq!(self.run(line), (status, out.into(), format!("tinystr-table: {message}\n")), "{line}");
    }
}

impl Drop for Folder {
    fn drop(&mut self) {
        let _ = fs::remove_dir_all(&self.0);
    }
}

#[test]
fn help_is_printed() {
    let here = Folder::new("help");
    for line in ["--help", "-h", "pack --help"] {
        assert!(here.printed(line).starts_with("tinystr-table pack  KIND -n N CODES TABLE"), "{line}");
    }
}

#[test]
fn what_is_wrong_with_a_command_line_is_named() {
    let here = Folder::new("arguments");
    for (line, fault) in [
        ("check --sorted --hashed table", "KIND is given twice"),
        ("check -n 3 -n 4 table", "-n is given twice"),
        ("check --map u8 --map u16 table", "--map is given twice"),
        ("--sorted -n 2", "the command is missing"),
        ("pick --sorted -n 2 table", "there is no command pick"),
        ("pack --sorted -n 2", "CODES is missing"),
        ("pack --sorted -n 2 codes", "TABLE is missing"),
        ("check --sorted -n 2 --map u8", "KEYS is missing"),
        ("check --sorted -n 2 --map u8 keys", "VALUES is missing"),
        ("get --sorted -n 2 table", "CODE is missing"),
        ("show --sorted -n 2 table more", "more is one argument too many"),
        ("show -n 2 table", "--sorted or --hashed is missing"),
        ("show --hashed table", "-n is missing"),
        ("show --hashed table -n", "-n has no value"),
        ("show --hashed table -n 17", "-n can't be 17"),
        ("show --hashed table -n 0", "-n can't be 0"),
        ("show --hashed table --map text0", "--map can't be text0"),
    ] {
        here.fails(line, 2, "", &format!("{fault}; see tinystr-table --help"));
    }
}

#[test]
fn tables_are_those_of_the_library() {
    let here = Folder::new("tables");
    let codes = ["USD", "CHF", "JPY", "EUR", "KWD"];
    let texts = codes.map(|it| it.parse::<TinyAsciiStr<3>>().unwrap());
    here.write("codes.txt", codes.join("\r\n"));
    for (kind, bytes) in [("--sorted", pack_sorted(&texts)), ("--hashed", pack_hashed(&texts).unwrap())] {
        assert_eq!(here.printed(&format!("pack {kind} -n 3 codes.txt codes.tbl")), "");
        assert_eq!(here.read("codes.tbl"), bytes);
        assert_eq!(here.printed(&format!("check {kind} -n 3 codes.tbl")), "codes.tbl: 5 codes\n");
        let shown = here.printed(&format!("show {kind} -n 3 codes.tbl"));
        assert_eq!(shown.replace('\n', "").as_bytes(), &bytes[bytes.len() - 3 * codes.len()..]);
        let index = shown.lines().position(|it| it == "EUR").unwrap();
        assert_eq!(here.printed(&format!("get {kind} -n 3 codes.tbl EUR")), format!("EUR\t{index}\n"));
        here.fails(&format!("get {kind} -n 3 codes.tbl GBP EUR"), 1, &format!("EUR\t{index}\n"), "GBP isn't found");
    }
}

#[test]
fn maps_are_those_of_the_library() {
    let here = Folder::new("maps");
    here.write("places.tsv", "JPY\t0\nEUR\t2\nCLF\t513\n");
    let map: BTreeMap<TinyAsciiStr<3>, [u8; 2]> =
        [("JPY", [0, 0]), ("EUR", [2, 0]), ("CLF", [1, 2])].map(|(key, value)| (key.parse().unwrap(), value)).into();
    for (kind, packed) in [("--sorted", pack_map(&map)), ("--hashed", pack_hashed_map(&map).unwrap())] {
        let options = format!("{kind} -n 3 --map u16");
        here.printed(&format!("pack {options} places.tsv keys values"));
        assert_eq!((here.read("keys"), here.read("values")), packed);
        let shown = here.printed(&format!("show {options} keys values"));
        let mut lines: Vec<&str> = shown.lines().collect();
        lines.sort();
        assert_eq!(lines, ["CLF\t513", "EUR\t2", "JPY\t0"]);
        assert_eq!(here.printed(&format!("get {options} keys values CLF JPY")), "CLF\t513\nJPY\t0\n");
        for value in ["u8", "u32", "text1", "text3"] {
            let fault = "values: 6 bytes aren't a value for each of 3 keys";
            here.fails(&format!("check {kind} -n 3 --map {value} keys values"), 1, "", fault);
        }
    }
}

#[test]
fn values_may_be_texts() {
    let here = Folder::new("texts");
    let lines = "CH\tCHF\nDE\tEUR\nGB\tGB\n";
    here.write("lines.tsv", lines);
    let options = "--sorted -n 2 --map text3";
    here.printed(&format!("pack {options} lines.tsv keys values"));
    assert_eq!(here.read("values"), b"CHFEURGB\0");
    assert_eq!(here.printed(&format!("show {options} keys values")), lines);
    here.write("values", b"CHFEURG\0B");
    let fault = "values: record 2: a byte other than NUL follows a NUL";
    here.fails(&format!("check {options} keys values"), 1, "", fault);
}

#[test]
fn each_capacity_is_served() {
    let here = Folder::new("capacities");
    for n in (1..=16).chain([32]) {
        let code = "x".repeat(n);
        here.write("code.txt", &code);
        for kind in ["--sorted", "--hashed"] {
            here.printed(&format!("pack {kind} -n {n} code.txt code.tbl"));
            assert_eq!(here.printed(&format!("show {kind} -n {n} code.tbl")), format!("{code}\n"));
        }
    }
}

#[test]
fn faults_name_their_line_or_their_file() {
    let here = Folder::new("faults");
    for (options, text, fault) in [
        ("--sorted", "EUR\nJPY\nEUR\n", "line 3: EUR is on line 1 too"),
        ("--hashed", "EUR\nJPY\nJPY\nEUR\n", "line 3: JPY is on line 2 too"),
        ("--hashed", "EUR\n\nJPY\n", "line 2: there is no code"),
        ("--hashed", "EUR\nEURO", "line 2: found string of larger length 4 when constructing string of length 3"),
        ("--sorted --map u8", "EUR\t2\nJPY", "line 2: there is no tab"),
        ("--sorted --map u8", "EUR\t2\nJPY\t256", "line 2: the number has more than 8 bits"),
        ("--sorted --map u64", "EUR\t-1", "line 1: a number has digits alone, unlike \"-1\""),
        ("--sorted --map u64", "EUR\t+5", "line 1: a number has digits alone, unlike \"+5\""),
        ("--sorted --map u64", "EUR\t", "line 1: a number has digits alone, unlike \"\""),
        ("--sorted --map u32", "EUR\t4294967296", "line 1: the number has more than 32 bits"),
        ("--sorted --map u64", "EUR\t18446744073709551616", "line 1: number too large to fit in target type"),
        ("--sorted --map text2", "EUR\tabc", "line 1: found string of larger length 3 when constructing string of length 2"),
        ("--sorted", "EUR\r\nJP\r\r\n", "line 2: there is a CR without LF after it: lines end in LF or CR LF"),
        ("--sorted", "A\rB\r", "line 1: there is a CR without LF after it: lines end in LF or CR LF"),
        ("--sorted --map text3", "EUR\ta\r\r\n", "line 1: there is a CR without LF after it: lines end in LF or CR LF"),
        ("--sorted", "\u{feff}A", "line 1: there is a byte order mark, which is no ASCII"),
    ] {
        here.write("faulty.txt", text);
        let values = if options.contains("--map") { " values" } else { "" };
        here.fails(&format!("pack {options} -n 3 faulty.txt table{values}"), 1, "", &format!("faulty.txt: {fault}"));
        assert_eq!(here.names(), ["faulty.txt"], "{text}");
    }
    here.write("faulty.txt", b"\xff\xfeA\0\n\0");
    here.fails("pack --sorted -n 3 faulty.txt table", 1, "", "faulty.txt: line 1: there is a byte order mark, which is no ASCII");
    here.write("swapped.tbl", "JPYEUR");
    here.fails("get --sorted -n 3 swapped.tbl EUR", 1, "", "swapped.tbl: record 1 isn't above the one before it");
    here.fails("show --sorted -n 3 none", 1, "", "none: No such file or directory (os error 2)");
}

#[test]
fn numbers_are_little_endian() {
    let here = Folder::new("numbers");
    for (kind, lines, bytes) in [
        ("u8", "A\t255\n", "ff"),
        ("u16", "A\t258\n", "0201"),
        ("u32", "A\t16909060\nB\t4294967295\n", "04030201ffffffff"),
        ("u64", "A\t72623859790382856\nB\t18446744073709551615\n", "0807060504030201ffffffffffffffff"),
    ] {
        here.write("lines", lines);
        here.printed(&format!("pack --sorted -n 1 --map {kind} lines keys values"));
        assert_eq!(here.read("values").iter().map(|it| format!("{it:02x}")).collect::<String>(), bytes);
        assert_eq!(here.printed(&format!("show --sorted -n 1 --map {kind} keys values")), lines);
    }
}

#[test]
fn a_code_ends_at_the_first_tab() {
    let here = Folder::new("tab");
    let line = "CH\ta\tb\n";
    here.write("lines", line);
    here.printed("pack --sorted -n 2 --map text3 lines keys values");
    assert_eq!((here.read("keys"), here.read("values")), (b"CH".to_vec(), b"a\tb".to_vec()));
    assert_eq!(here.printed("get --sorted -n 2 --map text3 keys values CH"), line);
}

#[test]
fn what_no_line_has_is_not_shown() {
    let here = Folder::new("unshown");
    for (table, values, code) in [
        ("a\nb", None, r"a\nb"),
        ("a\rb", None, r"a\rb"),
        ("\0\0\0", None, ""),
        ("a\tb", Some("xyz"), r"a\tb"),
        ("abc", Some("x\ry"), "abc"),
    ] {
        here.write("table", table);
        here.write("values", values.unwrap_or_default());
        let given = if values.is_some() { "--map text3 table values" } else { "table" };
        let fault = format!("no line has the code \"{code}\" and its value");
        here.fails(&format!("show --sorted -n 3 {given}"), 1, "", &fault);
    }
}

#[test]
fn minus_is_a_stream_and_two_end_the_options() {
    let here = Folder::new("streams");
    assert_eq!(here.run_reading("-x\nEU\n", "pack --sorted -n 2 - -"), (0, "-xEU".into(), "".into()));
    assert_eq!(here.run_reading("-xEU", "show --sorted -n 2 -"), (0, "-x\nEU\n".into(), "".into()));
    assert_eq!(here.run_reading("-xEU", "check --sorted -n 2 -"), (0, "standard input: 2 codes\n".into(), "".into()));
    assert_eq!(here.run_reading("-xEU", "get --sorted -n 2 - -- -x"), (0, "-x\t0\n".into(), "".into()));
    let fault = "tinystr-table: standard input: line 1: there is no code\n";
    assert_eq!(here.run_reading("\n", "pack --sorted -n 2 - table"), (1, "".into(), fault.into()));
    assert_eq!(here.run_reading("EU\n", "pack --sorted -n 2 - /dev/fd/1"), (0, "EU".into(), "".into()));
    here.write("codes", "EU\n");
    let mut out = File::create(here.0.join("out")).unwrap();
    out.write_all(b"before").unwrap();
    assert!(here.command("pack --sorted -n 2 codes /dev/stdout").stdout(out).status().unwrap().success());
    assert_eq!(here.read("out"), b"beforeEU");
    here.fails("get --sorted -n 2 table -x", 2, "", "there is no option -x; see tinystr-table --help");
}

#[test]
fn a_stream_that_is_full_is_named() {
    let here = Folder::new("full");
    here.write("table", "EU");
    here.write("lines", "EU\t1\n");
    here.write("keys", "old");
    let fault = "tinystr-table: standard output: No space left on device (os error 28)\n";
    for line in ["--help", "check --sorted -n 2 table", "show --sorted -n 2 table", "pack --sorted -n 2 --map u8 lines keys -"] {
        assert_eq!(outcome(here.command(line).stdout(full()).output().unwrap()), (1, "".into(), fault.into()), "{line}");
    }
    assert_eq!((here.read("keys"), here.names()), (b"old".to_vec(), ["keys", "lines", "table"].map(String::from).into()));
    for (line, status) in [("check", 2), ("get --sorted -n 2 table DE", 1)] {
        assert_eq!(outcome(here.command(line).stderr(full()).output().unwrap()), (status, "".into(), "".into()), "{line}");
    }
}

#[test]
fn a_closed_pipe_ends_quietly() {
    let here = Folder::new("pipe");
    here.write("table", "EU");
    for (line, status) in [("--help", 0), ("show --sorted -n 2 table", 0), ("pack --sorted -n 2 table -", 1)] {
        let (_, closed) = io::pipe().unwrap();
        assert_eq!(outcome(here.command(line).stdout(closed).output().unwrap()), (status, "".into(), "".into()), "{line}");
    }
}

#[test]
fn a_file_is_replaced_whole_or_not_at_all() {
    let here = Folder::new("replaced");
    let names = ["few.tsv", "few.txt", "keys", "many.tsv", "many.txt", "table", "values"];
    let many = (100..300).map(|it| it.to_string());
    here.write("few.txt", "A\n");
    here.write("few.tsv", "A\ta\n");
    here.write("many.txt", many.clone().collect::<Vec<_>>().join("\n"));
    here.write("many.tsv", many.map(|it| format!("{it}\t{it}\n")).collect::<String>());
    let (table, map) = ("pack --sorted -n 4", "pack --sorted -n 4 --map text16");
    // the keys, 800 bytes, can be written, and the values, 3200, can't
    for (limit, line, file) in
        [("1", format!("{table} many.txt table"), "table"), ("2", format!("{map} many.tsv keys values"), "values")]
    {
        here.printed(&format!("{table} few.txt table"));
        here.printed(&format!("{map} few.tsv keys values"));
        let message = format!("tinystr-table: {file}: File too large (os error 27)\n");
        assert_eq!(here.run_limited(&format!("-f {limit}"), &line), (1, "".into(), message));
        assert_eq!(here.names(), names);
        assert_eq!(["table", "keys", "values"].map(|it| here.read(it)).concat(), b"A\0\0\0A\0\0\0a\0\0\0\0\0\0\0\0\0\0\0\0\0\0\0");
        here.printed(&line);
        assert_ne!(here.read(file)[0], b'A');
        assert_eq!(here.names(), names);
    }
}

#[test]
fn other_files_stay() {
    let here = Folder::new("others");
    let others = [".keys.0.new", ".keys.1.old", ".values.0.old"];
    here.write("codes", "EU\t1\n");
    for name in others {
        here.write(name, name);
    }
    here.printed("pack --sorted -n 2 --map u8 codes keys values");
    assert_eq!((here.read("keys"), here.read("values")), (b"EU".to_vec(), vec![1]));
    assert_eq!(others.map(|name| here.read(name)), others.map(Vec::from));
    assert_eq!(here.names(), [&others[..], &["codes", "keys", "values"]].concat());
}

#[test]
fn a_target_keeps_its_permissions_and_its_links() {
    let here = Folder::new("links");
    here.write("codes", "EU");
    symlink("circle", here.0.join("circle")).unwrap();
    here.fails("pack --sorted -n 2 codes circle", 1, "", "circle: Too many levels of symbolic links (os error 40)");
    here.write("table", "");
    fs::set_permissions(here.0.join("table"), fs::Permissions::from_mode(0o600)).unwrap();
    symlink("table", here.0.join("link")).unwrap();
    here.printed("pack --sorted -n 2 codes link");
    let target = fs::symlink_metadata(here.0.join("table")).unwrap();
    assert_eq!((here.read("table"), target.permissions().mode() & 0o777), (b"EU".to_vec(), 0o600));
    assert!(here.0.join("link").is_symlink());
}

#[test]
fn a_file_is_given_once() {
    let here = Folder::new("once");
    here.write("codes", "EU\t1\n");
    symlink("codes", here.0.join("link")).unwrap();
    fs::hard_link(here.0.join("codes"), here.0.join("hard")).unwrap();
    for (paths, first, second) in [
        ("codes codes v", "codes", "codes"),
        ("codes k codes", "codes", "codes"),
        ("codes link v", "codes", "link"),
        ("link k codes", "link", "codes"),
        ("codes hard v", "codes", "hard"),
        ("codes ./codes v", "codes", "./codes"),
        ("codes new ./new", "new", "./new"),
        ("codes - -", "/dev/stdout", "/dev/stdout"),
    ] {
        let fault = format!("{first} and {second} are the same file; see tinystr-table --help");
        here.fails(&format!("pack --sorted -n 2 --map u8 {paths}"), 2, "", &fault);
    }
    let mut reading = here.command("pack --sorted -n 2 - codes");
    let (status, _, message) = outcome(reading.stdin(File::open(here.0.join("codes")).unwrap()).output().unwrap());
    assert_eq!((status, message.starts_with("tinystr-table: /dev/stdin and codes are")), (2, true), "{message}");
    here.fails("check --sorted -n 2 --map u8 - -", 2, "", "- and - are the same file; see tinystr-table --help");
    assert_eq!((here.read("codes"), here.names()), (b"EU\t1\n".to_vec(), ["codes", "hard", "link"].map(String::from).into()));
}

#[test]
fn reading_shows_progress() {
    let here = Folder::new("progress");
    let mut shell = Command::new("sh");
    shell.current_dir(&here.0).args(["-c", "sleep 2 | \"$0\" pack --sorted -n 2 - table", TINYSTR_TABLE]);
    let (status, _, message) = outcome(shell.output().unwrap());
    assert_eq!((status, message.lines().next()), (0, Some("reading standard input: 1 s")));
}

/// 100,000 lines of 8 bytes are packed in 9 MB, of which 4 MB are the program's.
#[test]
fn memory_is_bounded() {
    let here = Folder::new("memory");
    here.write("codes", (10_000_000..10_100_000).map(|it| format!("{it}\n")).collect::<String>());
    for kind in ["--sorted", "--hashed"] {
        let (status, _, message) = here.run_limited("-d 9000", &format!("pack {kind} -n 8 codes table"));
        assert_eq!(status, 0, "{message}");
    }
}
