use super::*;

fn parsed(words: &[&str]) -> Result<Request, String> {
    parse(words.iter().map(OsString::from))
}

/// The command that words ask for, with answers as text.
#[track_caller]
fn command(words: &[&str]) -> Command {
    let request = parsed(words).expect("the arguments are accepted");
    assert!(!request.json);
    request.command
}

fn fault(words: &[&str]) -> String {
    parsed(words).expect_err("the arguments are accepted")
}

fn key() -> Name {
    Name::from("k")
}

fn manner(points: Points) -> Manner {
    Manner {
        points,
        field: Field::Prime,
        quiet: false,
        locate: true,
        shorter: false,
        keep: None,
    }
}

fn compare(manner: Manner) -> Command {
    let (old, new) = (Name::from("a"), Name::from("b"));
    Command::Compare { old, new, manner }
}

#[test]
fn each_command_is_read() {
    assert_eq!(
        command(&["check", "k"]),
        Command::Check { keys: vec![key()] }
    );
    assert_eq!(command(&["show", "k"]), Command::Show { key: key() });
    let (row, column) = (0, u32::MAX);
    let key = key();
    assert_eq!(
        command(&["cell", "k", "0", "4294967295"]),
        Command::Cell { key, row, column }
    );
}

#[test]
fn price_takes_three_rates() {
    for words in [
        &[
            "price", "k", "--cell", "150", "--call", "75", "--factor", "3",
        ][..],
        &["price", "--factor=3", "k", "--call=75", "--cell=150"],
        &[
            "price",
            "--call",
            "0075",
            "--cell=150",
            "--factor",
            "3",
            "--",
            "k",
        ],
    ] {
        let (cell, call, factor) = (150, 75, 3);
        let (key, rates) = (key(), Rates { cell, call, factor });
        assert_eq!(command(words), Command::Price { key, rates });
    }
    let (cell, call, factor) = (0, u32::MAX, 1_000_001);
    let (key, rates) = (Name::from("-"), Rates { cell, call, factor });
    assert_eq!(
        command(&[
            "price",
            "-",
            "--cell=0",
            "--call=4294967295",
            "--factor=1000001"
        ]),
        Command::Price { key, rates }
    );
}

#[test]
fn a_rate_is_wanted_and_a_number() {
    let rates = ["--cell=1", "--call=2", "--factor=3"];
    for given in 0..7 {
        let some = rates
            .iter()
            .enumerate()
            .filter(|(at, _)| given >> at & 1 == 1);
        let words: Vec<_> = ["price", "k"]
            .into_iter()
            .chain(some.map(|(_, rate)| *rate))
            .collect();
        assert_eq!(
            fault(&words),
            "price needs --cell R, --call R and --factor R"
        );
    }
    for option in ["--cell", "--call", "--factor"] {
        let with = |more: &[&str]| fault(&[&["price", "k"], &rates[..], more].concat());
        assert_eq!(with(&[option, "1"]), format!("{option} stands twice"));
        assert_eq!(
            with(&[&format!("{option}=1")]),
            format!("{option} stands twice")
        );
        assert_eq!(with(&[option]), format!("{option} needs a value"));
        for value in ["", "-1", "+1", "1.5", "0x1", "one", "4294967296", "--json"] {
            let wanted =
                format!("{option} takes hundredths of a penny, from 0 to 1000000, not {value:?}");
            assert_eq!(fault(&["price", "k", option, value]), wanted);
            assert_eq!(fault(&["price", "k", &format!("{option}={value}")]), wanted);
        }
    }
}

#[test]
fn check_takes_several_files() {
    let keys = ["k", "-", "l"].map(Name::from).to_vec();
    assert_eq!(command(&["check", "k", "-", "l"]), Command::Check { keys });
}

#[test]
fn evaluate_takes_a_point_or_none() {
    let wanted = |point: Option<&str>| Command::Evaluate {
        key: key(),
        point: point.map(Name::from),
        field: Field::Prime,
    };
    assert_eq!(command(&["evaluate", "k"]), wanted(None));
    assert_eq!(command(&["evaluate", "--random", "k"]), wanted(None));
    for words in [
        &["evaluate", "k", "--point", "-f"][..],
        &["evaluate", "--point", "-f", "k"],
        &["evaluate", "--point=-f", "k"],
    ] {
        assert_eq!(command(words), wanted(Some("-f")));
    }
    assert_eq!(
        command(&["evaluate", "--point=a=b", "k"]),
        wanted(Some("a=b"))
    );
    assert_eq!(command(&["evaluate", "--point=", "k"]), wanted(Some("")));
}

#[test]
fn compare_takes_a_number_of_points_or_a_file() {
    let number = |number| compare(manner(Points::Number(number)));
    assert_eq!(
        command(&["compare", "a", "b"]),
        compare(manner(Points::Enough))
    );
    assert_eq!(command(&["compare", "--points", "7", "a", "b"]), number(7));
    assert_eq!(
        command(&["compare", "a", "b", "--points=1000000"]),
        number(1_000_000)
    );
    assert_eq!(
        command(&["compare", "a", "b", "--point", "f"]),
        compare(manner(Points::File(Name::from("f"))))
    );
    let quiet = Manner {
        quiet: true,
        ..manner(Points::Enough)
    };
    assert_eq!(command(&["compare", "--quiet", "a", "b"]), compare(quiet));
    let bare = Manner {
        locate: false,
        ..manner(Points::Enough)
    };
    assert_eq!(
        command(&["compare", "a", "--no-locate", "b"]),
        compare(bare)
    );
}

#[test]
fn compare_names_the_shorter_key_and_keeps_it() {
    let wanted = |keep: Option<(&str, bool)>| Manner {
        shorter: true,
        keep: keep.map(|(to, force)| Keep {
            to: Name::from(to),
            force,
        }),
        ..manner(Points::Enough)
    };
    let named = command(&["compare", "a", "--shorter", "b"]);
    assert_eq!(named, compare(wanted(None)));
    // What is kept is named too.
    for words in [
        &["compare", "a", "b", "--keep", "f"][..],
        &["compare", "--keep=f", "a", "b"],
        &["compare", "a", "--shorter", "b", "--keep", "f"],
    ] {
        assert_eq!(command(words), compare(wanted(Some(("f", false)))));
        let forced = [words, &["--force"]].concat();
        assert_eq!(command(&forced), compare(wanted(Some(("f", true)))));
    }
    for (value, file) in [("--keep=--shorter", "--shorter"), ("--keep=./-", "./-")] {
        let kept = command(&["compare", "a", "b", value]);
        assert_eq!(kept, compare(wanted(Some((file, false)))));
    }
    let words = ["compare", "a", "b", "--keep", "-f"];
    assert_eq!(command(&words), compare(wanted(Some(("-f", false)))));
    let (list, manner) = (Name::from("l"), wanted(None));
    let pairs = command(&["compare", "--pairs=l", "--shorter"]);
    assert_eq!(pairs, Command::ComparePairs { list, manner });
}

#[test]
fn compare_takes_a_list_of_pairs() {
    for words in [
        &["compare", "--pairs", "l", "--points", "2"][..],
        &["compare", "--points=2", "--pairs=l"],
    ] {
        let (list, manner) = (Name::from("l"), manner(Points::Number(2)));
        assert_eq!(command(words), Command::ComparePairs { list, manner });
    }
    let wanted = "compare takes OLD NEW, or --pairs FILE: 0 given";
    assert_eq!(fault(&["compare"]), wanted);
    for names in [&["a"][..], &["a", "b"]] {
        let words = [&["compare", "--pairs", "l"], names].concat();
        assert_eq!(fault(&words), "--pairs and OLD NEW exclude each other");
    }
}

#[test]
fn move_takes_a_file_to_write() {
    let wanted = |to, force| Command::Move {
        key: key(),
        to: Name::from(to),
        force,
    };
    assert_eq!(command(&["move", "k", "--to", "f"]), wanted("f", false));
    assert_eq!(command(&["move", "--to=f", "k"]), wanted("f", false));
    assert_eq!(command(&["move", "--to", "-f", "k"]), wanted("-f", false));
    for words in [
        &["move", "k", "--to", "f", "--force"],
        &["move", "--force", "--to", "f", "k"],
    ] {
        assert_eq!(command(words), wanted("f", true));
    }
    let (key, to, force) = (Name::from("-"), Name::from("./-"), false);
    assert_eq!(
        command(&["move", "-", "--to", "./-"]),
        Command::Move { key, to, force }
    );
    let wanted = "--to takes a file, and standard output (-) has the answer";
    assert_eq!(fault(&["move", "k", "--to", "-"]), wanted);
    assert_eq!(fault(&["move", "-", "--to=-"]), wanted);
}

#[test]
fn the_field_is_an_option() {
    let field = Field::Quadratic;
    for words in [
        &["evaluate", "k", "--quadratic", "--point", "f"],
        &["evaluate", "--point", "f", "--quadratic", "k"],
    ] {
        let (key, point) = (key(), Some(Name::from("f")));
        assert_eq!(command(words), Command::Evaluate { key, point, field });
    }
    let manner = Manner {
        field,
        ..manner(Points::Number(3))
    };
    assert_eq!(
        command(&["compare", "--quadratic", "a", "b", "--points", "3"]),
        compare(manner)
    );
}

#[test]
fn each_command_has_json() {
    for words in [
        &["check", "k"][..],
        &["show", "k"],
        &["evaluate", "k"],
        &["cell", "k", "0", "0"],
        &["price", "k", "--cell=1", "--call=2", "--factor=3"],
        &["move", "k", "--to", "f"],
        &["compare", "a", "b"],
        &["compare", "--pairs", "l"],
    ] {
        let command = command(words);
        let request = parsed(&[words, &["--json"]].concat());
        let json = true;
        assert_eq!(request, Ok(Request { command, json }));
    }
}

#[test]
fn help_and_version_are_read() {
    for words in [
        &["--help"][..],
        &["-h"],
        &["help"],
        &["show", "--help"],
        &["cell", "k", "-h"],
    ] {
        assert_eq!(command(words), Command::Help, "{words:?}");
    }
    assert_eq!(command(&["--version"]), Command::Version);
    assert_eq!(command(&["version"]), Command::Version);
}

#[test]
fn behind_two_dashes_every_argument_is_a_name() {
    for name in ["--help", "--", "--json", "--point=f"] {
        let key = Name::from(name);
        assert_eq!(command(&["show", "--", name]), Command::Show { key });
    }
    let keys = ["--json", "-k", "--"].map(Name::from).to_vec();
    assert_eq!(
        command(&["check", "--", "--json", "-k", "--"]),
        Command::Check { keys }
    );
    assert!(parsed(&["check", "-k"]).is_err());
}

#[test]
fn a_name_need_not_be_text() {
    let name = OsString::from_vec(vec![b'k', 0xff]);
    let key = Name::from(&name);
    let request = parse(["show".into(), name.clone()].into_iter());
    assert_eq!(request.map(|it| it.command), Ok(Command::Show { key }));
    let option = OsString::from_vec(b"--point=\xff".to_vec());
    let request = parse(["evaluate".into(), "k".into(), option].into_iter());
    let point = Some(Name::from(&OsString::from_vec(vec![0xff])));
    let (key, field) = (self::key(), Field::Prime);
    assert_eq!(
        request.map(|it| it.command),
        Ok(Command::Evaluate { key, point, field })
    );
}

#[test]
fn what_is_wrong_is_said() {
    for (words, wanted) in [
        (&[][..], "a command is missing"),
        (&["chekc"], r#"there is no command "chekc""#),
        (&["check"], "check takes KEY...: 0 given"),
        (&["show", "a", "b"], "show takes KEY: 2 given"),
        (&["cell", "k", "1"], "cell takes KEY ROW COLUMN: 2 given"),
        (&["price", "--cell=1"], "price takes KEY: 0 given"),
        (&["price", "k", "150", "75"], "price takes KEY: 3 given"),
        (&["price", "k", "--json=yes"], "--json takes no value"),
        (&["move", "--to", "f"], "move takes KEY: 0 given"),
        (&["move", "k", "l", "--to", "f"], "move takes KEY: 2 given"),
        (&["move", "k"], "move needs --to FILE"),
        (&["move", "k", "--to"], "--to needs a value"),
        (&["move", "k", "--to=f", "--to=g"], "--to stands twice"),
        (
            &["move", "k", "--to", "--force"],
            "--to needs a value; a file of that name is --to=--force",
        ),
        (
            &["move", "k", "--to=f", "--force=yes"],
            "--force takes no value",
        ),
        (
            &["compare", "a"],
            "compare takes OLD NEW, or --pairs FILE: 1 given",
        ),
        (&["evaluate", "k", "--point"], "--point needs a value"),
        (
            &["evaluate", "k", "--point", "f", "--random"],
            "--point and --random exclude each other",
        ),
        (
            &["compare", "a", "b", "--point", "f", "--points", "1"],
            "--point and --points exclude each other",
        ),
        (
            &["compare", "a", "b", "--points", "1", "--points=2"],
            "--points stands twice",
        ),
        (
            &["compare", "a", "b", "--quadratic", "--quadratic"],
            "--quadratic stands twice",
        ),
        (
            &["compare", "a", "b", "--no-locate", "--no-locate"],
            "--no-locate stands twice",
        ),
        (
            &["compare", "a", "b", "--no-locate=yes"],
            "--no-locate takes no value",
        ),
        (
            &["compare", "a", "b", "--shorter", "--shorter"],
            "--shorter stands twice",
        ),
        (
            &["compare", "a", "b", "--shorter=yes"],
            "--shorter takes no value",
        ),
        (&["compare", "a", "b", "--keep"], "--keep needs a value"),
        (
            &["compare", "a", "b", "--keep", "--force"],
            "--keep needs a value; a file of that name is --keep=--force",
        ),
        (
            &["compare", "a", "b", "--keep=f", "--keep=f"],
            "--keep stands twice",
        ),
        (
            &["compare", "a", "b", "--keep", "-"],
            "--keep takes a file, and standard output (-) has the answer",
        ),
        (
            &["compare", "a", "b", "--keep=-", "--force"],
            "--keep takes a file, and standard output (-) has the answer",
        ),
        (
            &["compare", "a", "b", "--force"],
            "--force needs --keep FILE",
        ),
        (
            &["compare", "a", "b", "--shorter", "--force"],
            "--force needs --keep FILE",
        ),
        (
            &["compare", "--pairs=l", "--force"],
            "--force needs --keep FILE",
        ),
        (
            &["compare", "--pairs=l", "--keep=f"],
            "--pairs and --keep exclude each other",
        ),
        (
            &["compare", "--keep", "f", "--pairs", "l", "--force"],
            "--pairs and --keep exclude each other",
        ),
        (&["check", "a", "--json=yes"], "--json takes no value"),
        (
            &["compare", "-", "-"],
            "standard input (-) can be read once",
        ),
        (
            &["evaluate", "-", "--point", "-"],
            "standard input (-) can be read once",
        ),
        (
            &["compare", "--pairs=-", "--point=-"],
            "standard input (-) can be read once",
        ),
        (
            &["cell", "k", "4294967296", "0"],
            r#"ROW is a number from 0 to 4294967295, not "4294967296""#,
        ),
    ] {
        assert_eq!(fault(words), wanted);
    }
    for points in ["0", "1000001", "+1", "", "one"] {
        let wanted = format!("--points takes a number from 1 to 1000000, not {points:?}");
        assert_eq!(fault(&["compare", "a", "b", "--points", points]), wanted);
    }
}

#[test]
fn an_option_belongs_to_its_command() {
    for words in [
        &["check", "k", "--points", "1"][..],
        &["check", "k", "--quadratic"],
        &["check", "k", "--quiet"],
        &["cell", "k", "0", "0", "--quadratic"],
        &["compare", "a", "b", "--random"],
        &["compare", "a", "b", "--locate"],
        &["evaluate", "k", "--no-locate"],
        &["evaluate", "k", "--points", "1"],
        &["evaluate", "k", "--pairs", "l"],
        &["evaluate", "k", "--to", "f"],
        &["evaluate", "k", "--force"],
        &["compare", "a", "b", "--to", "f"],
        &["check", "k", "--shorter"],
        &["evaluate", "k", "--shorter"],
        &["move", "k", "--to", "f", "--keep", "g"],
        &["move", "k", "--to", "f", "--shorter"],
        &["move", "k", "--to", "f", "--quiet"],
        &["move", "k", "--to", "f", "-f"],
        &["check", "k", "--cell", "1"],
        &["cell", "k", "0", "0", "--cell=1"],
        &["evaluate", "k", "--factor=1"],
        &["price", "k", "--cells=1"],
        &["price", "k", "--quadratic"],
        &["price", "k", "--point", "f"],
        &["check", "k", "--help=x"],
    ] {
        assert!(fault(words).starts_with("there is no option"), "{words:?}");
    }
    let wanted = "there is no option \"-1\" here, and no number is negative; a file of that name goes after --";
    assert_eq!(fault(&["cell", "k", "-1", "0"]), wanted);
}
