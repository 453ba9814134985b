//! The lines that the comparison prints, pasted into the shell.

use crate::folder::Folder;
use compare::{
    generate::Generator,
    side::MODEL,
    step::{Call, Step},
    world::{Reply, World},
};
use model::image::Kind;

/// What the shell prints for a step, without messages and bytes.
fn expected(step: &Step, reply: Option<Reply>) -> Vec<String> {
    let (Step::Call { call, .. }, Some(reply)) = (step, reply) else {
        return vec![];
    };
    let (low, rest) = (reply.answer % 256, reply.answer / 256);
    match call {
        Call::Show { .. } if low == 1 => {
            vec![format!(
                "yes; offset {}, length {}",
                rest / 1024,
                rest % 1024
            )]
        }
        Call::Show { .. } => vec!["no".into()],
        Call::ThinGet { .. } | Call::ThinPut { .. } => {
            let words: String = reply.words.iter().map(|word| format!(" {word}")).collect();
            vec![format!("{low}; count {rest}"), format!("record{words}")]
        }
        _ => vec![format!("{low}; count {rest}")],
    }
}

/// Whether the step takes a name apart that has blanks behind it.
fn has_read_padded_name(step: &Step, reply: Option<&Reply>) -> bool {
    let (Step::Call { call, .. }, Some(reply)) = (step, reply) else {
        return false;
    };
    matches!(call, Call::Name { name, .. } if name.contains(&b' ') && reply.answer % 256 == 1)
}

/// What the shell printed, without messages and bytes, and without what is no answer.
fn answers(printed: &str) -> Vec<String> {
    let answer = |line: &str| match line.split_once("; count ") {
        Some((status, count)) => {
            let number = status.split(' ').next()?;
            Some(format!("{number}; count {count}"))
        }
        None => {
            let kept = line == "no" || line.starts_with("yes; ") || line.starts_with("record");
            kept.then(|| line.to_string())
        }
    };
    printed.lines().filter_map(answer).collect()
}

#[test]
fn every_line_of_the_comparison_answers_as_the_model_does() {
    let folder = Folder::new();
    let (mut protected, mut padded, mut truncated, mut ended) = (0, 0, 0, 0);
    for seed in 0..60 {
        let mut world = World::fresh(Kind::Raw);
        let mut generator = Generator::new(seed);
        let mut script = format!("{}\n", Step::Fresh(Kind::Raw));
        let mut wanted = Vec::new();
        while let Some(step) = generator.next(&world) {
            script += &format!("{step}\n");
            let reply = world.run(MODEL, &step);
            padded += usize::from(has_read_padded_name(&step, reply.as_ref()));
            wanted.extend(expected(&step, reply));
        }
        let image = format!("disk{seed}");
        script += &format!("save {image}\n");
        let (printed, status) = folder.shell(&[], &script);
        assert_eq!(status, Some(0), "{printed}");
        assert_eq!(answers(&printed), wanted, "seed {seed}");
        assert!(folder.read(&image) == world.image(), "seed {seed}");
        let answered = |status| {
            wanted
                .iter()
                .filter(|answer| answer.starts_with(status))
                .count()
        };
        protected += answered("144;");
        truncated += answered("137;");
        ended += answered("3;");
    }
    assert!(protected > 0, "no call has the notch closed");
    assert!(padded > 0, "no name is padded with blanks");
    assert!(truncated > 0, "no line is longer than its buffer");
    assert!(ended > 0, "no get comes to its file's end");
}

/// The cases that the comparison prints for two faults of the model, where it is lent an image of another length.
#[test]
fn lengths_that_are_lent_reach_the_call() {
    for (case, answer) in [
        ("fresh\nlent 92161 40 cio 8 7 0 \"\" -\n", "203; count 0"),
        ("fresh\nlent 128 40 thin-put 0 0 0 0 0 -\n", "203; count 0"),
        ("fresh\nlent 92160 39 cio 8 7 0 \"\" -\n", "255; count 0"),
        ("fresh\nlent 92160 40 cio 8 7 0 \"\" -\n", "134; count 0"),
        ("fresh\nlent 0 40 show 0 4\n", "no"),
        ("fresh\nlent 1 40 recover 0\n", "203; count 0"),
        ("fresh\nlent 92176 40 recover 0\n", "205; count 0"),
        (
            "fresh double\nlent 92176 40 cio 8 7 0 \"\" -\n",
            "205; count 0",
        ),
        ("fresh atr\nlent 92160 40 header\n", "203; count 0"),
    ] {
        let (printed, status) = Folder::new().shell(&[], case);
        assert_eq!(status, Some(0), "{printed}");
        assert_eq!(answers(&printed)[0], answer, "{case}");
    }
}
