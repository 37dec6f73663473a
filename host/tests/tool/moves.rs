//! The command that writes a key in the other edition: move.

use crate::keys::{
    call, calling, cell, flat, head, recursive, sample, scaled, single, sparse, END,
};
use crate::support::{Folder, Ran};
use std::fs::{self, Permissions};
use std::os::unix::fs::PermissionsExt;
use std::os::unix::net::UnixListener;
use std::process::Stdio;

/// The bytes of the records of a kind, by the kind.
const LENGTHS: [usize; 9] = [0, 3, 3, 3, 21, 11, 1, 3, 15];

/// A key of edition 1 in edition 2, by hand.
fn by_hand(key: &[u8]) -> Vec<u8> {
    let (mut copy, mut at) = (Vec::new(), 0);
    while at < key.len() {
        let record = &key[at..at + LENGTHS[usize::from(key[at])]];
        at += record.len();
        match record[0] {
            1 => copy.extend([&[7], &record[1..]].concat()),
            5 => copy.extend([&[8], &record[1..], &[1, 0, 0, 0]].concat()),
            _ => copy.extend(record),
        }
    }
    copy
}

/// The line of a key that is moved.
fn moved(from: (u32, usize), to: (u32, usize), name: &str) -> String {
    format!(
        "moved from edition {}, {} bytes, to edition {}, {} bytes; \"{name}\"\n",
        from.0, from.1, to.0, to.1
    )
}

#[test]
fn a_key_is_moved_there_and_back() {
    let folder = Folder::new("move", &[("one", &sample())]);
    folder
        .run(&["move", "one", "--to", "two"])
        .answers(0, &moved((1, 53), (2, 61), "two"));
    assert_eq!(folder.read("two"), scaled(1, 1));
    folder
        .run(&["move", "--to=back", "two"])
        .answers(0, &moved((2, 61), (1, 53), "back"));
    assert_eq!(folder.read("back"), sample());
    assert_eq!(folder.read("one"), sample());
    assert_eq!(folder.names(), ["back", "one", "two"]);
}

#[test]
fn a_key_without_calls_keeps_its_length() {
    let folder = Folder::new("move-flat", &[("flat", &flat())]);
    folder
        .run(&["move", "flat", "--to", "two"])
        .answers(0, &moved((1, 28), (2, 28), "two"));
    assert_eq!(folder.read("two"), [&[7], &flat()[1..]].concat());
}

#[test]
fn a_key_from_standard_input_is_moved() {
    let folder = Folder::new("move-input", &[]);
    folder
        .run_on(&["move", "-", "--to", "two"], &sample())
        .answers(0, &moved((1, 53), (2, 61), "two"));
    folder
        .run_on(&["move", "-", "--to", "./-"], &sample())
        .answers(0, &moved((1, 53), (2, 61), "./-"));
    assert_eq!(folder.read("two"), scaled(1, 1));
    assert_eq!(folder.read("-"), scaled(1, 1));
    folder
        .run_on(&["move", "-", "--to", "-"], b"")
        .fails(&["--to takes a file", "--help"]);
    assert_eq!(folder.names(), ["-", "two"]);
}

#[test]
fn a_copy_goes_into_another_folder() {
    let folder = Folder::new("move-below", &[("one", &sample())]);
    folder.folder("below");
    folder.run(&["move", "one", "--to", "below/two"]).status(0);
    assert_eq!(folder.read("below/two"), scaled(1, 1));
    let names = fs::read_dir(folder.path("below")).expect("a folder");
    assert_eq!(names.count(), 1);
    folder
        .run(&["move", "one", "--to", "absent/two"])
        .fails(&["cannot write \"absent/two\": No such file"]);
    folder
        .run(&["move", "one", "--to", ""])
        .fails(&["cannot write \"\": "]);
    assert_eq!(folder.names(), ["below", "one"]);
}

#[test]
fn a_file_that_is_there_stays() {
    let folder = Folder::new("move-onto", &[("one", &sample()), ("there", b"there")]);
    folder.link("there", "link");
    folder.link("absent", "broken");
    folder.folder("folder");
    let names = folder.names();
    let fails = |name: &str, why: &str| {
        let line = format!("cannot write \"{name}\": it exists, and {why}");
        folder.run(&["move", "one", "--to", name]).fails(&[&line]);
    };
    for name in ["there", "one", "./one"] {
        fails(name, "--force is not given");
    }
    for name in ["link", "broken", "folder"] {
        fails(name, "is no regular file");
    }
    assert_eq!(folder.names(), names);
    assert_eq!(folder.read("there"), b"there");
    assert_eq!(folder.read("one"), sample());
}

#[test]
fn a_file_is_replaced_where_that_is_forced() {
    let folder = Folder::new("move-force", &[("one", &sample()), ("there", b"there")]);
    let force = |key: &str, to: &str| folder.run(&["move", key, "--force", "--to", to]);
    let closed = Permissions::from_mode(0o600);
    fs::set_permissions(folder.path("there"), closed).expect("the modes are set");
    for name in ["there", "new"] {
        force("one", name).answers(0, &moved((1, 53), (2, 61), name));
        assert_eq!(folder.read(name), scaled(1, 1));
    }
    let modes = |name| {
        fs::metadata(folder.path(name))
            .expect("a file")
            .permissions()
    };
    assert_eq!(modes("there").mode() & 0o777, 0o600);
    force("one", "one").answers(0, &moved((1, 53), (2, 61), "one"));
    assert_eq!(folder.read("one"), scaled(1, 1));
    force("one", "one").answers(0, &moved((2, 61), (1, 53), "one"));
    assert_eq!(folder.read("one"), sample());
    assert_eq!(folder.names(), ["new", "one", "there"]);
}

#[test]
fn what_is_no_regular_file_is_not_replaced() {
    let folder = Folder::new("move-device", &[("one", &sample()), ("kept", b"kept")]);
    folder.folder("folder");
    folder.link("/dev/null", "null");
    folder.link("kept", "link");
    folder.link("absent", "broken");
    // Standard output, which goes to a file or to a pipe.
    folder.link("/proc/self/fd/1", "output");
    let _socket = UnixListener::bind(folder.path("socket")).expect("a socket");
    for name in ["folder", "null", "socket", ".", "link", "broken", "output"] {
        folder
            .run(&["move", "one", "--to", name, "--force"])
            .fails(&[&format!("cannot write \"{name}\": it is no regular file")]);
    }
    let names = [
        "broken", "folder", "kept", "link", "null", "one", "output", "socket",
    ];
    assert_eq!(folder.names(), names);
    assert_eq!(folder.read("kept"), b"kept");
    assert!(folder.path("output").is_symlink());
}

#[test]
fn nothing_is_written_where_the_move_is_refused() {
    let folder = Folder::new("move-refused", &[("there", b"there")]);
    let p = morgana::P;
    // 4,368 calls and what else makes 65,536 bytes in edition 2, and three more.
    let (full, over) = (calling(3, 4368), calling(4, 4368));
    for (key, line) in [
        (
            scaled(1, 2),
            "55 at 45: a factor other than 1 on the way back; \
             array 0 is called in array 1 with factor 2, and in edition 1 every factor is 1",
        ),
        (
            scaled(p - 1, 2),
            "55 at 30: a factor other than 1 on the way back; \
             array 0 is called in array 1 with factor 2147483646 = -1, and in edition 1 every factor is 1",
        ),
        (
            over,
            "56 at 65539: moved key over 65,536 bytes; \
             the key has 48067 bytes and 4368 calls, each 4 bytes longer in edition 2",
        ),
        (
            scaled(1, p),
            "8 at 45: cell value or factor p or more; the factor is 2147483647 in array 1, at most 2147483646",
        ),
        (
            [scaled(1, 2), vec![6]].concat(),
            "13 at 61: bytes after the end; 1 byte",
        ),
        (vec![0; 70_000], "1 at 65536: key over 65,536 bytes"),
    ] {
        folder.write("key", &key);
        let wanted = format!("refused {line}; key \"key\"\n");
        for arguments in [
            &["move", "key", "--to", "new"][..],
            &["move", "key", "--to", "there", "--force"],
            &["move", "key", "--to", "key", "--force"],
        ] {
            folder.run(arguments).answers(2, &wanted);
        }
        assert_eq!(folder.names(), ["key", "there"]);
        assert_eq!(folder.read("there"), b"there");
        assert_eq!(folder.read("key"), key);
    }
    folder.write("full", &full);
    folder
        .run(&["move", "full", "--to", "copy"])
        .answers(0, &moved((1, 48_064), (2, 65_536), "copy"));
    folder.run(&["move", "copy", "--to", "back"]).status(0);
    assert_eq!(folder.read("back"), full);
}

#[test]
fn of_several_that_write_one_file_one_does() {
    let folder = Folder::new("move-race", &[("one", &sample()), ("flat", &flat())]);
    for round in 0..10 {
        let name = format!("new-{round}");
        let start = |number: usize| {
            let key = ["one", "flat"][number % 2];
            let mut program = folder.program(&["move", key, "--to", &name]);
            let piped = program.stdout(Stdio::piped()).stderr(Stdio::piped());
            piped.spawn().expect("morgana runs")
        };
        let children: Vec<_> = (0..8).map(start).collect();
        let ran: Vec<_> = children
            .into_iter()
            .map(|child| Ran::of(child.wait_with_output().expect("morgana ends")))
            .collect();
        let (done, failed): (Vec<_>, Vec<_>) =
            ran.into_iter().partition(|ran| ran.status == Some(0));
        assert_eq!(done.len(), 1);
        for ran in failed {
            ran.fails(&["it exists"]);
        }
        let wanted = match done[0].out.contains("28 bytes") {
            true => by_hand(&flat()),
            false => scaled(1, 1),
        };
        assert_eq!(folder.read(&name), wanted);
    }
    assert_eq!(folder.names().len(), 12);
}

/// Drawn numbers.
struct Draw(u64);

impl Draw {
    /// A number below a bound.
    fn below(&mut self, bound: u32) -> u32 {
        self.0 = self
            .0
            .wrapping_mul(6_364_136_223_846_793_005)
            .wrapping_add(1);
        (self.0 >> 33) as u32 % bound
    }

    /// A key of edition 1 with up to five arrays.
    fn key(&mut self) -> Vec<u8> {
        let bits = [self.below(4) as u8, self.below(4) as u8];
        let mut key = head(bits[0], bits[1]);
        let mut shapes: Vec<[u8; 2]> = Vec::new();
        for left in (0..1 + self.below(5)).rev() {
            let shape = match left {
                0 => bits,
                _ => bits.map(|bits| self.below(u32::from(bits) + 1) as u8),
            };
            let fits = |called: &[u8; 2]| called[0] <= shape[0] && called[1] <= shape[1];
            let callable: Vec<_> = (0..shapes.len()).filter(|id| fits(&shapes[*id])).collect();
            match self.below(3) {
                0 => key.extend(self.cells(shape)),
                _ => {
                    key.extend(recursive(shape[0], shape[1]));
                    for _ in 0..self.below(4) * u32::from(!callable.is_empty()) {
                        let id = callable[self.below(callable.len() as u32) as usize];
                        let [row, column] =
                            [0, 1].map(|axis| self.below(1 << (shape[axis] - shapes[id][axis])));
                        key.extend(call(id as u16, row, column));
                    }
                }
            }
            shapes.push(shape);
        }
        [key, END.to_vec()].concat()
    }

    /// A sparse array of a shape with some cells.
    fn cells(&mut self, shape: [u8; 2]) -> Vec<u8> {
        let mut array = sparse(shape[0], shape[1]);
        for _ in 0..self.below(3) {
            let [row, column] = shape.map(|bits| self.below(1 << bits));
            let [a, b, c] = [0; 3].map(|_| self.below(morgana::P));
            array.extend(cell(row, column, a, b, c));
        }
        array
    }
}

#[test]
fn drawn_keys_are_moved_and_stay_the_same_circuit() {
    let folder = Folder::new("move-drawn", &[]);
    let mut draw = Draw(1);
    let mut calls = 0;
    for _ in 0..60 {
        let key = draw.key();
        let copy = by_hand(&key);
        calls += (copy.len() - key.len()) / 4;
        folder.write("one", &key);
        folder
            .run(&["move", "one", "--to", "two", "--force"])
            .answers(0, &moved((1, key.len()), (2, copy.len()), "two"));
        assert_eq!(folder.read("two"), copy);
        folder
            .run(&["move", "two", "--to", "back", "--force"])
            .answers(0, &moved((2, copy.len()), (1, key.len()), "back"));
        assert_eq!(folder.read("back"), key);
        for (old, new) in [("one", "two"), ("two", "one")] {
            for option in [&[][..], &["--quadratic"]] {
                let arguments = [&["compare", old, new], option].concat();
                let ran = folder.run(&arguments);
                assert!(ran.out.starts_with("same\n"), "{}", ran.out);
            }
        }
    }
    assert!(calls > 60, "{calls}");
}

#[test]
fn damaged_keys_are_refused_as_check_refuses_them() {
    let folder = Folder::new("move-damaged", &[]);
    let mut draw = Draw(2);
    let mut refused = 0;
    for _ in 0..120 {
        let mut key = draw.key();
        if draw.below(2) == 0 {
            key = by_hand(&key);
        }
        let at = draw.below(key.len() as u32) as usize;
        match draw.below(3) {
            0 => key.truncate(at),
            1 => key[at] = draw.below(10) as u8,
            _ => key[at] = draw.below(256) as u8,
        }
        folder.write("key", &key);
        let checked = folder.run(&["check", "key"]);
        let ran = folder.run(&["move", "key", "--to", "copy"]);
        match ran.status {
            Some(0) => {
                assert_eq!(checked.status, Some(0));
                fs::remove_file(folder.path("copy")).expect("there is a copy");
            }
            _ if ran.out.starts_with("refused 55 ") => assert_eq!(checked.status, Some(0)),
            _ => {
                refused += 1;
                assert_eq!(ran, checked);
            }
        }
        assert_eq!(folder.names(), ["key"]);
    }
    assert!(refused > 40, "{refused}");
}

#[test]
fn keys_of_both_editions_are_compared() {
    let folder = Folder::new(
        "mixed",
        &[
            ("one", &sample()),
            ("flat", &flat()),
            ("single", &single(1)),
        ],
    );
    let p = morgana::P;
    for (first, second, same) in [
        (1, 1, true),
        (2, 0, true),
        (p - 1, 3, true),
        (1, 2, false),
        (p - 1, 1, false),
    ] {
        folder.write("two", &scaled(first, second));
        for (old, new) in [
            ("one", "two"),
            ("two", "one"),
            ("flat", "two"),
            ("two", "flat"),
        ] {
            for option in [&[][..], &["--quadratic"], &["--points=2"]] {
                let ran = folder.run(&[&["compare", old, new], option].concat());
                ran.status(if same { 0 } else { 1 });
            }
        }
    }
    let ran = folder.run(&["compare", "two", "single"]);
    let wanted = "different\nold has 1 row bit and 1 column bit, new 0 and 0: ";
    assert!(ran.out.starts_with(wanted), "{}", ran.out);
}
