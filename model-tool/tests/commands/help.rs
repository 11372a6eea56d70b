//! The pages of `--help`: every option and every status.

use super::*;

const RUN_OPTIONS: [&str; 7] = [
    "--blockers",
    "--word",
    "--allowance",
    "--hints",
    "--way",
    "--edition",
    "--resume",
];

fn page(words: &[&str]) -> String {
    let ended = afa(words);
    assert_eq!((ended.status, ended.errors.as_str()), (0, ""), "{words:?}");
    ended.output
}

#[test]
fn of_the_program() {
    let overview = page(&["--help"]);
    assert_eq!(page(&["help"]), overview);
    for command in COMMANDS {
        assert!(overview.contains(&format!("\n  {command} ")), "{command}");
    }
    for word in ["states", "events", "part", "initial", "final", "row"] {
        assert!(overview.contains(&format!("\n  {word} ")), "{word}");
    }
}

#[test]
fn of_each_command_by_each_name() {
    for command in COMMANDS {
        let said = page(&[command, "--help"]);
        assert!(
            said.starts_with(&format!("usage: afa {command} ")),
            "{said}"
        );
        for words in [
            &["help", command][..],
            &["--help", command],
            &[command, "models/none.txt", "--help"],
        ] {
            assert_eq!(page(words), said, "{words:?}");
        }
    }
}

#[test]
fn every_option_is_named() {
    let check = [&RUN_OPTIONS[..], &["--save", "--html", "--json"]].concat();
    let why = [&RUN_OPTIONS[..], &["--level"]].concat();
    for (command, options) in [
        ("check", check),
        ("why", why),
        ("image", vec![]),
        ("text", vec![]),
        ("test", vec![]),
        ("run", vec![]),
    ] {
        let said = page(&[command, "--help"]);
        let named = said
            .lines()
            .filter_map(|line| line.trim_start().strip_prefix("--"));
        let named: BTreeSet<String> = named
            .map(|line| format!("--{}", line.split_whitespace().next().unwrap()))
            .collect();
        assert_eq!(
            named,
            options.iter().map(|&option| option.to_owned()).collect(),
            "{command}"
        );
        // An option that the page names is known, and no other is.
        for option in [&RUN_OPTIONS[..], &["--save", "--html", "--json", "--level"]].concat() {
            let ended = afa(&[
                command,
                "models/b.txt",
                option,
                "/dev/null",
                option,
                "/dev/null",
            ]);
            let is_unknown = ended.errors.contains("is no option here");
            assert_eq!(
                is_unknown,
                !named.contains(option),
                "{command} {option}: {ended:?}"
            );
        }
    }
}

#[test]
fn options_and_statuses_stand_in_columns() {
    for command in COMMANDS {
        let said = page(&[command, "--help"]);
        let options = said
            .lines()
            .filter(|line| line.trim_start().starts_with("--"));
        for line in options {
            assert!(line.starts_with("  --"), "{command}: {line}");
            let meaning = line
                .find("   ")
                .map(|gap| line.len() - line[gap..].trim_start().len());
            assert!([Some(18), None].contains(&meaning), "{command}: {line}");
        }
        // What an option means may go on in the lines below it.
        for line in said.lines().filter(|line| line.starts_with("    ")) {
            let meaning = line.len() - line.trim_start().len();
            assert_eq!(meaning, 18, "{command}: {line}");
        }
    }
}

#[test]
fn every_exit_status_is_named() {
    for (command, statuses) in [
        ("check", "0123"),
        ("why", "013"),
        ("test", "013"),
        ("run", "013"),
        ("image", "03"),
        ("text", "03"),
    ] {
        let said = page(&[command, "--help"]);
        let (_, behind) = said.split_once("exit status:").unwrap();
        let digits: String = behind.chars().filter(char::is_ascii_digit).collect();
        assert_eq!(digits, statuses, "{command}");
    }
}
