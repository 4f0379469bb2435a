//! `bliss-box completions`.

use super::*;

/// What bash offers for the last word of a command line.
fn offered(line: &[&str]) -> String {
    let script = "source <(\"$0\" completions bash) && COMP_WORDS=(\"$@\") && COMP_CWORD=$(($# - 1)) \
                  && $(complete -p bliss-box | sed 's/.* -F \\([^ ]*\\) .*/\\1/') bliss-box && echo \"${COMPREPLY[@]}\"";
    let mut bash = Command::new("bash");
    bash.args(["-c", script, env!("CARGO_BIN_EXE_bliss-box")]).args(line);
    let ran = ended(bash.stdin(Stdio::null()).stdout(Stdio::piped()).stderr(Stdio::piped()).spawn().unwrap());
    assert_eq!((ran.status, ran.err.as_str()), (0, ""), "{line:?}");
    ran.out.trim_end().to_owned()
}

#[test]
fn bash_completes_commands_options_and_files() {
    assert_eq!(offered(&["bliss-box", "dr"]), "draw");
    assert_eq!(offered(&["bliss-box", "draw", "--li"]), "--limit --list");
    assert_eq!(offered(&["bliss-box", "draw", "--tr"]), "");
    assert_eq!(offered(&["bliss-box", "draw", "--de"]), "--degree --deviation");
    assert_eq!(offered(&["bliss-box", "respond", "--de"]), "--degree");
    for command in ["draw", "demo"] {
        assert_eq!(offered(&["bliss-box", command, "--deviation", ""]), "107 215 250 271");
        assert_eq!(offered(&["bliss-box", command, "--deviation", "25"]), "250");
    }
    assert_eq!(offered(&["bliss-box", "check"]), "check-key");
    assert_eq!(offered(&["bliss-box", "check-key", "--l"]), "--length");
    assert_eq!(offered(&["bliss-box", "rec"]), "record");
    assert_eq!(offered(&["bliss-box", "record", "wr"]), "write");
    assert_eq!(offered(&["bliss-box", "record", "write", "--z"]), "--z1 --z2");
    assert_eq!(offered(&["bliss-box", "record", "read", "--d"]), "");
    assert_eq!(offered(&["bliss-box", "help", "record", "re"]), "read");
    assert_eq!(offered(&["bliss-box", "completions", "po"]), "powershell");
    let list = file("completed-list", "");
    assert_eq!(offered(&["bliss-box", "draw", "--list", &list[..list.len() - 4]]), list);
    assert_eq!(offered(&["bliss-box", "record", "read", "--z2", &list[..list.len() - 4]]), list);
}

#[test]
fn each_shell_knows_each_command_and_option() {
    for shell in ["bash", "elvish", "fish", "powershell", "zsh"] {
        let script = printed(&["completions", shell]);
        for command in commands() {
            assert!(script.contains(command.rsplit(' ').next().unwrap()), "{shell} {command}");
            for option in options(&command) {
                // fish writes an option without its dashes.
                assert!(script.contains(&option) || script.contains(&format!("-l {}", &option[2..])), "{shell} {option}");
            }
        }
    }
}

/// A file's name is completed where a value is a file: zsh is told so for each.
#[test]
fn each_file_is_completed_as_a_file() {
    let helps: String = commands().iter().map(|command| short_help(command)).collect();
    let files = helps.lines().filter(|line| line.starts_with(' ') && line.contains("<FILE>")).count();
    assert!(files >= 17, "{helps}");
    assert_eq!(printed(&["completions", "zsh"]).matches(":_files'").count(), files);
}
