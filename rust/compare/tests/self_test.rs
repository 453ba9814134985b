//! The comparison tested on the model itself: no difference without a fault, and one with it.

use std::sync::OnceLock;

use compare::ending::Ending;
use compare::generate::Generator;
use compare::pair::Pair;
use compare::run::run;
use compare::shrink::shortest;
use compare::side::MODEL;
use compare::statistics::Statistics;
use compare::step::{Buffer, Call, Cio, Step};
use compare::world::{Reply, World};
use model::fault::Fault;
use model::image::Kind;
use model::Model;

#[test]
fn the_model_does_not_differ_from_itself() {
    let mut pair = Pair::new(("model", MODEL), ("model", MODEL));
    let calls = run(&mut pair, 1, 5_000, &mut Statistics::default());
    assert!(calls.is_ok_and(|calls| calls >= 5_000));
}

#[test]
fn a_fault_is_noticed_and_its_case_shrunk() {
    let faulty = Model(Fault::SearchSkipsOutput);
    let mut pair = Pair::new(("model", MODEL), ("faulty model", &faulty));
    let result = run(&mut pair, 1, 100_000, &mut Statistics::default());
    let Err(failure) = result else {
        panic!("the fault is not noticed")
    };
    let shrunk = shortest(&mut pair, 1, *failure);
    assert!(
        shrunk.steps.len() <= 2,
        "an open for output, and a search for its name"
    );
    assert!(!shrunk.difference.0.is_empty());
    let open = |step: &Step| matches!(step, Step::Call { notch: 0, .. });
    assert!(shrunk.steps.iter().all(open), "{:?}", shrunk.steps);
    let (place, difference) = pair
        .first_difference(&World::fresh(Kind::Raw), &shrunk.steps, shrunk.sound)
        .expect("the short list shows the difference too");
    assert_eq!(place + 1, shrunk.steps.len());
    assert_eq!(difference, shrunk.difference);
}

/// The last step of a short list of calls on which the model with the fault differs.
fn step_that_shows(fault: Fault) -> Step {
    let faulty = Model(fault);
    let mut pair = Pair::new(("model", MODEL), ("faulty model", &faulty));
    let Err(failure) = run(&mut pair, 1, 100_000, &mut Statistics::default()) else {
        panic!("{fault:?} is not noticed")
    };
    let mut steps = shortest(&mut pair, 1, *failure).steps;
    steps.pop().expect("the step that shows the difference")
}

#[test]
fn a_case_of_a_line_that_is_cut_ends_with_its_get_record() {
    let step = step_that_shows(Fault::LineEndFits);
    let is_get_record = |call: &Call| matches!(call, Call::Cio(cio) if cio.command == 5);
    assert!(
        matches!(&step, Step::Call { call, .. } if is_get_record(call)),
        "{step}"
    );
}

#[test]
fn a_case_of_a_files_end_keeps_the_length_of_its_get() {
    let step = step_that_shows(Fault::ThinGetWithoutEnd);
    let is_thin_get =
        |call: &Call| matches!(call, Call::ThinGet { buffer, .. } if !buffer.is_empty());
    assert!(
        matches!(&step, Step::Call { call, .. } if is_thin_get(call)),
        "{step}"
    );
}

#[test]
fn a_case_keeps_a_closed_notch_where_that_matters() {
    let after_name = step_that_shows(Fault::NotchAfterName);
    assert!(matches!(after_name, Step::Call { notch: 1, .. }));
    let one_only = step_that_shows(Fault::NotchOneOnly);
    assert!(matches!(one_only, Step::Call { notch: 2.., .. }));
}

/// The name of that step.
fn name_that_shows(fault: Fault) -> Vec<u8> {
    match step_that_shows(fault) {
        Step::Call { call, .. } => call.name().to_vec(),
        step => panic!("{step} is no call"),
    }
}

/// The blanks of a name.
fn blanks(name: &[u8]) -> usize {
    name.iter().filter(|&&byte| byte == b' ').count()
}

#[test]
fn a_case_keeps_the_blanks_of_a_name_where_they_matter() {
    let without = name_that_shows(Fault::DigitFirst);
    assert_eq!(blanks(&without), 0, "{without:?}");
    let at_its_end = name_that_shows(Fault::BlankEndsNoName);
    assert_eq!(blanks(&at_its_end), 1, "{at_its_end:?}");
    assert!(at_its_end.ends_with(b" "), "{at_its_end:?}");
    let several = name_that_shows(Fault::PlaceOfLastBlank);
    assert!(blanks(&several) > 1, "{several:?}");
    let text_behind = name_that_shows(Fault::BlanksPassedOver);
    assert_eq!(blanks(&text_behind), 1, "{text_behind:?}");
    assert!(!text_behind.ends_with(b" "), "{text_behind:?}");
}

#[test]
fn a_disk_that_is_no_longer_sound_is_noticed_and_its_case_shrunk() {
    // Both sides make the same mistake, so nothing else differs.
    let faulty = Model(Fault::DeleteKeepsFlag);
    let mut pair = Pair::new(("one", &faulty), ("other", &faulty));
    let Err(failure) = run(&mut pair, 1, 100_000, &mut Statistics::default()) else {
        panic!("the disk stays sound")
    };
    let shrunk = shortest(&mut pair, 1, *failure);
    assert_eq!(shrunk.difference.0, ["the disk is no longer sound"]);
    assert!(shrunk.steps.len() <= 4, "{:?}", shrunk.steps);
}

#[test]
fn a_difference_of_a_showing_is_an_offset_and_a_length() {
    let faulty = Model(Fault::ShowWholeSector);
    let mut pair = Pair::new(("model", MODEL), ("faulty model", &faulty));
    let show = Call::Show { slot: 0, sector: 4 };
    let difference = pair.step(&show.into(), false).unwrap_err();
    let expected =
        "answer: model yes, offset 384, length 0, faulty model yes, offset 384, length 125";
    assert_eq!(difference.0, [expected]);
}

#[test]
fn a_difference_in_the_image_is_a_sector_and_a_byte() {
    let faulty = Model(Fault::HeaderRestKept);
    let mut pair = Pair::new(("model", MODEL), ("faulty model", &faulty));
    let poke = |sector, byte, value| Step::Poke {
        sector,
        byte,
        value,
    };
    let steps = [
        Step::Fresh(Kind::AtrDouble),
        poke(0, 9, 7),
        Call::Header.into(),
    ];
    let start = World::fresh(Kind::Raw);
    let (place, difference) = pair.first_difference(&start, &steps, false).unwrap();
    assert_eq!(place, 2);
    assert_eq!(difference.0, ["header byte 9: model 0, faulty model 7"]);

    let faulty = Model(Fault::FormatClearsHalves);
    let mut pair = Pair::new(("model", MODEL), ("faulty model", &faulty));
    let format = Call::Cio(Cio {
        name: b"D:\x9b".to_vec(),
        ..Cio::new(0, 254)
    });
    let steps = [
        Step::Fresh(Kind::AtrDouble),
        poke(720, 255, 7),
        format.into(),
    ];
    let (_, difference) = pair.first_difference(&start, &steps, false).unwrap();
    assert_eq!(
        difference.0,
        ["image sector 720 byte 255: model 0, faulty model 7"]
    );
}

#[test]
fn a_seed_gives_the_same_case_again() {
    let steps = || {
        let mut world = World::fresh(Kind::Raw);
        let mut generator = Generator::new(9);
        let mut steps: Vec<Step> = Vec::new();
        while let Some(step) = generator.next(&world) {
            world.run(MODEL, &step);
            steps.push(step);
        }
        steps
    };
    assert!(steps().len() >= 30);
    assert_eq!(steps(), steps());
}

/// What came in many calls, which are made once for all tests that ask.
fn of_many_calls() -> &'static Statistics {
    static STATISTICS: OnceLock<Statistics> = OnceLock::new();
    STATISTICS.get_or_init(|| {
        let mut statistics = Statistics::default();
        let mut pair = Pair::new(("model", MODEL), ("model", MODEL));
        assert!(run(&mut pair, 1, 100_000, &mut statistics).is_ok());
        statistics
    })
}

#[test]
fn every_status_comes_for_every_call_that_has_it() {
    let statistics = of_many_calls();
    for kind in Kind::ALL {
        assert!(statistics.calls_on(kind) > 5_000, "{kind:?}");
    }
    let expected: [(&str, &[u8]); 23] = [
        ("close", &[1, 134, 144, 164, 203, 205, 255]),
        (
            "delete",
            &[
                1, 129, 130, 134, 144, 160, 163, 164, 165, 167, 170, 200, 203, 205, 255,
            ],
        ),
        (
            "format",
            &[1, 129, 130, 134, 144, 160, 165, 200, 203, 205, 255],
        ),
        ("get", &[1, 3, 131, 133, 134, 136, 164, 203, 205, 255]),
        (
            "get record",
            &[1, 3, 131, 133, 134, 136, 137, 164, 203, 205, 255],
        ),
        ("header", &[1, 144, 203]),
        (
            "lock",
            &[
                1, 129, 130, 134, 144, 160, 163, 165, 170, 200, 203, 205, 255,
            ],
        ),
        ("name", &[1, 130, 160, 165, 255]),
        (
            "open 4",
            &[1, 129, 130, 134, 160, 165, 170, 200, 203, 205, 255],
        ),
        (
            "open 8",
            &[
                1, 129, 130, 134, 144, 160, 162, 163, 164, 165, 167, 169, 200, 203, 205, 255,
            ],
        ),
        ("open, all eight open", &[129, 134, 203, 205, 255]),
        ("open, other direction", &[129, 134, 168, 203, 205, 255]),
        ("other commands", &[132, 134, 168, 203, 205, 255]),
        (
            "put",
            &[1, 133, 134, 135, 144, 162, 163, 164, 203, 205, 255],
        ),
        (
            "put record",
            &[1, 133, 134, 135, 144, 162, 163, 164, 203, 205, 255],
        ),
        ("recover", &[1, 144, 163, 165, 170, 201, 202, 203, 205]),
        (
            "rename",
            &[
                1, 129, 130, 134, 144, 160, 163, 165, 167, 170, 200, 201, 203, 205, 255,
            ],
        ),
        ("sector", &[1, 138, 139, 144, 203, 204, 205]),
        ("show", &[0, 1]),
        (
            "status",
            &[1, 129, 130, 134, 160, 165, 167, 170, 203, 205, 255],
        ),
        ("thin get", &[1, 3, 131, 133, 136, 164, 203, 205, 255]),
        (
            "thin put",
            &[1, 133, 135, 144, 162, 163, 164, 203, 205, 255],
        ),
        (
            "unlock",
            &[
                1, 129, 130, 134, 144, 160, 163, 165, 170, 200, 203, 205, 255,
            ],
        ),
    ];
    for (kind, statuses) in expected {
        assert_eq!(statistics.statuses(kind), statuses, "{kind}");
    }
}

#[test]
fn lines_are_dropped_and_ends_of_lines_do_not_fit() {
    let statistics = of_many_calls();
    assert_eq!(statistics.statuses_cut("get record"), [137, 164]);
    assert_eq!(statistics.statuses_cut("put record"), [162]);
    for kind in ["get", "put", "other commands"] {
        assert!(statistics.statuses_cut(kind).is_empty(), "{kind}");
    }
}

#[test]
fn the_statistics_tell_records_that_were_cut_apart() {
    let mut statistics = Statistics::default();
    let mut count = |command, length, status: u64, count: u64| {
        let cio = Cio {
            buffer: Buffer::Fill(length, b'x'),
            ..Cio::new(0, command)
        };
        let answer = status + 256 * count;
        statistics.count(Kind::Raw, false, &Call::Cio(cio).into(), answer);
    };
    for (status, bytes) in [(1, 5), (3, 5), (137, 5), (164, 5), (164, 4), (136, 4)] {
        count(5, 5, status, bytes);
    }
    for (status, bytes) in [(1, 5), (162, 5), (162, 4), (163, 0)] {
        count(9, 5, status, bytes);
    }
    count(5, 0, 133, 0);
    count(9, 0, 162, 0);
    count(9, 0, 163, 0);
    count(7, 5, 164, 5);
    count(11, 5, 162, 5);
    let printed = statistics.to_string();
    let (_, cut) = printed
        .split_once("own end of line did not fit:\n")
        .unwrap();
    let words = |line: &str| line.split_whitespace().collect::<Vec<_>>().join(" ");
    let expected = ["get record 2 | 137: 1 164: 1", "put record 2 | 162: 2"];
    assert_eq!(cut.lines().map(words).collect::<Vec<_>>(), expected);
}

#[test]
fn gets_end_at_the_end_of_a_sector_whatever_follows_it() {
    let statistics = of_many_calls();
    for ending in Ending::ALL {
        let status = match ending {
            Ending::File | Ending::FileWithSectorsLeft => 3,
            _ => 1,
        };
        for kind in ["get", "get record", "thin get"] {
            let statuses = statistics.statuses_at(ending, kind);
            assert_eq!(statuses, [status], "{kind}: {ending}");
        }
        for kind in ["put", "sector"] {
            assert!(statistics.statuses_at(ending, kind).is_empty(), "{kind}");
        }
    }
}

/// How a get of so many bytes has ended, of a file in sector 4 that has three bytes and such a link,
/// where it was left at an offset with so many sectors to enter.
fn ending(bytes: usize, link: [u8; 2], offset: u16, left: u16) -> Option<Ending> {
    let mut world = World::fresh(Kind::AtrDouble);
    let at = world.tail_start(4);
    world.image[at..at + 3].copy_from_slice(&[link[0], link[1], 3]);
    let used = world.tail_start(6) + 2;
    world.image[used] = 9;
    let call = Call::ThinGet {
        words: vec![1, 0, 4, 0, left],
        buffer: Buffer::Fill(bytes, 0),
    };
    let reply = Reply {
        answer: 1 + 256 * bytes as u64,
        buffer: vec![0; bytes],
        words: vec![1, 0, 4, offset, left],
    };
    Ending::of(&world, &call, &reply)
}

#[test]
fn the_statistics_tell_endings_apart() {
    for (bytes, link, offset, left, expected) in [
        (3, [0, 0], 3, 0, Some(Ending::File)),
        (3, [0, 0], 3, 1, Some(Ending::FileWithSectorsLeft)),
        (0, [0, 0], 3, 1, Some(Ending::FileWithNoBytes)),
        (3, [0, 5], 3, 1, Some(Ending::EmptySector)),
        (3, [0, 6], 3, 0, Some(Ending::SectorWithNoneLeft)),
        (3, [0, 6], 3, 1, Some(Ending::Sector)),
        (3, [1, 0], 3, 1, Some(Ending::EmptySector)),
        (0, [0, 6], 3, 1, None),
        (2, [0, 0], 2, 0, None),
    ] {
        assert_eq!(ending(bytes, link, offset, left), expected);
    }
}

#[test]
fn every_call_that_takes_a_name_takes_one_that_a_blank_ends() {
    let statistics = of_many_calls();
    for kind in [
        "delete", "format", "lock", "name", "open 4", "open 8", "rename", "status", "unlock",
    ] {
        let statuses = statistics.statuses_by_blank(kind);
        for status in [1, 130, 160, 165] {
            assert!(statuses.contains(&status), "{kind}: {statuses:?}");
        }
    }
    let first_name = statistics.statuses_by_blank("rename, first name");
    assert!(first_name.contains(&165), "{first_name:?}");
    assert!(!first_name.contains(&1), "{first_name:?}");
    for kind in [
        "close",
        "get",
        "get record",
        "other commands",
        "put",
        "put record",
        "recover",
    ] {
        assert!(statistics.statuses_by_blank(kind).is_empty(), "{kind}");
    }
}

#[test]
fn the_statistics_tell_names_that_a_blank_ends_apart() {
    let mut statistics = Statistics::default();
    let mut count = |command, name: &[u8], answer| {
        let cio = Cio {
            name: name.to_vec(),
            ..Cio::new(0, command)
        };
        statistics.count(Kind::Raw, false, &Call::Cio(cio).into(), answer);
    };
    count(13, b"D:A\x9b ", 1);
    count(13, b"D:A ", 170);
    count(13, b"D:A B\x9b", 170);
    count(32, b"D:A,B ", 1);
    count(32, b"D:A ,B\x9b", 165);
    count(12, b"D:A ", 1);
    let printed = statistics.to_string();
    let (_, by_blank) = printed.split_once(" name ended by a blank ").unwrap();
    let (by_blank, _) = by_blank
        .split_once("How often each status came for a get record")
        .unwrap();
    let expected = [
        "4",
        "How often each status came for a name ended by a blank:",
        "rename 1 | 1: 1",
        "rename, first name 1 | 165: 1",
        "status 2 | 170: 2",
    ];
    let words = |line: &str| line.split_whitespace().collect::<Vec<_>>().join(" ");
    assert_eq!(by_blank.lines().map(words).collect::<Vec<_>>(), expected);
}
