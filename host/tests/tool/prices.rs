//! The price of one evaluation: in pence and in pounds, what it is for, refusals and wrong usage.

use crate::keys::{
    call, flat, head, longest, recursive, sample, scaled, single, sparse, wide, END,
};
use crate::support::{Folder, Ran};

/// Files with the keys. The sample has one cell, two calls and three factors, in either edition.
fn folder(name: &str) -> Folder {
    Folder::new(
        name,
        &[
            ("sample", &sample()),
            ("scaled", &scaled(3, morgana::P - 1)),
            ("single", &single(1)),
            ("bad", b"\xff"),
        ],
    )
}

/// Runs price on a file at rates per cell, per call and per factor.
fn price(folder: &Folder, file: &str, rates: [u64; 3], more: &[&str]) -> Ran {
    let [cell, call, factor] = rates.map(|rate| rate.to_string());
    let arguments = [
        &["price", file, "--cell", &cell, "--call", &call],
        &["--factor", &factor][..],
        more,
    ];
    folder.run(&arguments.concat())
}

#[test]
fn the_price_is_printed_with_what_it_is_for() {
    let folder = folder("price");
    let wanted = "price 3 pence, 0.03 pounds\n\
        cells 1 at 150, calls 2 at 75, factors 3 at 3: 309 hundredths of a penny\n";
    for file in ["sample", "scaled"] {
        price(&folder, file, [150, 75, 3], &[]).answers(0, wanted);
    }
    for arguments in [
        &["price", "--factor=3", "--call=75", "sample", "--cell=150"],
        &["price", "--call=75", "--cell=150", "--factor=3", "./sample"],
    ] {
        folder.run(arguments).answers(0, wanted);
    }
    let input = ["price", "-", "--cell=150", "--call=75", "--factor=3"];
    folder.run_on(&input, &sample()).answers(0, wanted);
}

#[test]
fn pence_and_pounds() {
    let folder = folder("pounds");
    for (rate, wanted) in [
        (0, "price 0 pence, 0.00 pounds; 0 hundredths"),
        (1, "price 0 pence, 0.00 pounds; 1 hundredth"),
        (49, "price 0 pence, 0.00 pounds; 49 hundredths"),
        (50, "price 1 penny, 0.01 pounds; 50 hundredths"),
        (149, "price 1 penny, 0.01 pounds; 149 hundredths"),
        (150, "price 2 pence, 0.02 pounds; 150 hundredths"),
        (500, "price 5 pence, 0.05 pounds; 500 hundredths"),
        (5_000, "price 50 pence, 0.50 pounds; 5000 hundredths"),
        (9_949, "price 99 pence, 0.99 pounds; 9949 hundredths"),
        (9_950, "price 100 pence, 1.00 pounds; 9950 hundredths"),
        (10_100, "price 101 pence, 1.01 pounds; 10100 hundredths"),
        (100_000, "price 1000 pence, 10.00 pounds; 100000 hundredths"),
        (
            1_000_000,
            "price 10000 pence, 100.00 pounds; 1000000 hundredths",
        ),
    ] {
        let (first, total) = wanted.split_once("; ").expect("two parts");
        let second = format!("cells 1 at {rate}, calls 0 at 7, factors 0 at 8: {total} of a penny");
        let ran = price(&folder, "single", [rate, 7, 8], &[]);
        ran.answers(0, &format!("{first}\n{second}\n"));
    }
}

#[test]
fn a_long_key_at_the_greatest_rates() {
    let folder = folder("price-long");
    let calls = [
        head(30, 30),
        sparse(0, 0),
        recursive(30, 30),
        call(0, 1, 2).repeat(5956),
        END.to_vec(),
    ];
    folder.write("calls", &calls.concat());
    price(&folder, "calls", [1_000_000; 3], &[]).answers(
        0,
        "price 3633160000 pence, 36331600.00 pounds\n\
         cells 0 at 1000000, calls 5956 at 1000000, factors 357360 at 1000000: \
         363316000000 hundredths of a penny\n",
    );
    folder.write("cells", &longest());
    price(&folder, "cells", [999_999, 1, 1], &[]).answers(
        0,
        "price 31199969 pence, 311999.69 pounds\n\
         cells 3120 at 999999, calls 0 at 1, factors 0 at 1: 3119996880 hundredths of a penny\n",
    );
}

#[test]
fn price_has_an_object() {
    let folder = folder("price-json");
    let start = |file: &str| format!("{{\"command\":\"price\",\"file\":\"{file}\",\"status\":");
    for (file, rates, wanted) in [
        (
            "sample",
            [150, 75, 3],
            "\"cells\":1,\"calls\":2,\"factors\":3,\"per_cell\":150,\"per_call\":75,\"per_factor\":3,\
             \"hundredths\":309,\"pence\":3",
        ),
        (
            "scaled",
            [0, 1_000_000, 17],
            "\"cells\":1,\"calls\":2,\"factors\":3,\"per_cell\":0,\"per_call\":1000000,\"per_factor\":17,\
             \"hundredths\":2000051,\"pence\":20001",
        ),
        (
            "single",
            [0, 1, 2],
            "\"cells\":1,\"calls\":0,\"factors\":0,\"per_cell\":0,\"per_call\":1,\"per_factor\":2,\
             \"hundredths\":0,\"pence\":0",
        ),
    ] {
        let wanted = format!("{}\"accepted\",{wanted}}}\n", start(file));
        price(&folder, file, rates, &["--json"]).answers(0, &wanted);
    }
    let reason = "\"reason\":\"a rate over 1,000,000\"";
    let wanted = format!(
        "{}\"refused\",\"number\":62,\"place\":1,{reason},\"detail\":\"--call 1000001, at most 1000000\"}}\n",
        start("sample")
    );
    price(&folder, "sample", [150, 1_000_001, 3], &["--json"]).answers(2, &wanted);
    let wanted = start("bad")
        + "\"refused\",\"number\":3,\"place\":0,\"reason\":\"unknown kind\",\
           \"detail\":\"kind ff, and kinds are 01 to 08\"}\n";
    price(&folder, "bad", [1_000_001; 3], &["--json"]).answers(2, &wanted);
    let ran = price(&folder, "absent", [1; 3], &["--json"]);
    let message = "cannot read \\\"absent\\\": No such file or directory (os error 2)";
    let wanted = format!(
        "{}\"failed\",\"message\":\"{message}\"}}\n",
        start("absent")
    );
    assert_eq!((ran.status, ran.out), (Some(3), wanted));
}

#[test]
fn a_rate_that_is_too_great_is_named() {
    let folder = folder("price-over");
    let (most, over, greatest) = (1_000_000, 1_000_001, u64::from(u32::MAX));
    for (rates, wanted) in [
        ([over, 0, 0], "0: a rate over 1,000,000; --cell 1000001"),
        (
            [most, over, most],
            "1: a rate over 1,000,000; --call 1000001",
        ),
        (
            [0, most, over],
            "2: a rate over 1,000,000; --factor 1000001",
        ),
        (
            [greatest, over, over],
            "0: a rate over 1,000,000; --cell 4294967295",
        ),
        (
            [over, most, greatest],
            "0: a rate over 1,000,000; --cell 1000001",
        ),
        (
            [0, greatest, over],
            "1: a rate over 1,000,000; --call 4294967295",
        ),
    ] {
        for file in ["sample", "scaled", "single"] {
            let wanted = format!("refused 62 at {wanted}, at most 1000000; key \"{file}\"\n");
            price(&folder, file, rates, &[]).answers(2, &wanted);
        }
    }
    let input = ["price", "-", "--cell=0", "--call=1000001", "--factor=0"];
    let wanted = "refused 62 at 1: a rate over 1,000,000; --call 1000001, at most 1000000; key standard input\n";
    folder.run_on(&input, &sample()).answers(2, wanted);
}

#[test]
fn a_refused_key_is_not_priced() {
    let folder = folder("price-refused");
    folder.write("cut", &sample()[..52]);
    for rates in [[0; 3], [1_000_001; 3], [0, 0, 4_294_967_295]] {
        for (file, wanted) in [
            (
                "bad",
                "refused 3 at 0: unknown kind; kind ff, and kinds are 01 to 08; key \"bad\"\n",
            ),
            (
                "cut",
                "refused 2 at 52: record missing or cut off; the key has 52 bytes and no end; key \"cut\"\n",
            ),
        ] {
            price(&folder, file, rates, &[]).answers(2, wanted);
        }
    }
}

#[test]
fn the_price_at_a_penny_for_each_factor_is_what_evaluate_counts() {
    let folder = folder("price-factors");
    folder.write("flat", &flat());
    folder.write("wide", &wide(1));
    for (file, factors) in [
        ("sample", 3),
        ("scaled", 3),
        ("flat", 2),
        ("wide", 60),
        ("single", 0),
    ] {
        let ran = price(&folder, file, [0, 0, 100], &[]);
        let first = format!("price {factors} pence, 0.{factors:02} pounds\n");
        assert!(ran.out.starts_with(&first), "{}", ran.out);
        let ran = folder.run(&["evaluate", file]);
        assert!(
            ran.out.ends_with(&format!("\nfactors {factors}\n")),
            "{}",
            ran.out
        );
    }
}

#[test]
fn wrong_usage_is_said() {
    let folder = folder("price-usage");
    let missing = "price needs --cell R, --call R and --factor R";
    for (arguments, words) in [
        (&["sample"][..], missing),
        (&["sample", "--cell=1", "--call=2"], missing),
        (&["sample", "--cell=1", "--factor=2"], missing),
        (&["sample", "--call=1", "--factor=2"], missing),
        (
            &["--cell=1", "--call=2", "--factor=3"],
            "price takes KEY: 0 given",
        ),
        (
            &["sample", "scaled", "--cell=1", "--call=2", "--factor=3"],
            "price takes KEY: 2 given",
        ),
        (&["sample", "--cell=1", "--cell=1"], "--cell stands twice"),
        (
            &["sample", "--cell=1", "--call=2", "--factor"],
            "--factor needs a value",
        ),
        (
            &["sample", "--cell=1.50"],
            "--cell takes hundredths of a penny, from 0 to 1000000, not \"1.50\"",
        ),
        (
            &["sample", "--call=4294967296"],
            "--call takes hundredths of a penny, from 0 to 1000000, not \"4294967296\"",
        ),
        (
            &["sample", "--factor", "-3"],
            "--factor takes hundredths of a penny, from 0 to 1000000, not \"-3\"",
        ),
        (&["sample", "--point=p"], "there is no option \"--point\""),
    ] {
        for json in [&[][..], &["--json"]] {
            let price = [&["price"], json, arguments].concat();
            folder.run(&price).fails(&[words, "--help"]);
        }
    }
}
