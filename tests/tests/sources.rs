//! Where the product goes through the cipher. A contract speaks of the number that a call answers; that the code makes no other
//! call of the cipher is seen here, in its text.

use std::path::{Path, PathBuf};

/// The crates between the cipher and C.
const PRODUCT: [&str; 16] = [
    "cmac",
    "tree",
    "card",
    "stamp",
    "work",
    "calls",
    "plan",
    "messages",
    "split",
    "journal",
    "recovery",
    "host_bytes",
    "host_split",
    "host_journal",
    "pat",
    "pat_c",
];

/// The sources below a directory.
fn below(directory: &Path, found: &mut Vec<PathBuf>) {
    for entry in std::fs::read_dir(directory).expect("a directory of sources") {
        let path = entry.expect("an entry").path();
        match path.is_dir() {
            true => below(&path, found),
            false => found.push(path),
        }
    }
}

/// The lines of code of the product, each with its file as `crate/file` and without comments.
fn lines() -> Vec<(String, String)> {
    let crates = Path::new(env!("CARGO_MANIFEST_DIR")).join("../crates");
    let mut lines = Vec::new();
    for name in PRODUCT {
        let mut files = Vec::new();
        below(&crates.join(name).join("src"), &mut files);
        files.sort();
        for file in files {
            let text = std::fs::read_to_string(&file).expect("a source");
            let short = file.file_name().expect("a name").to_string_lossy();
            let code = text.lines().map(str::trim);
            let code = code.filter(|line| !line.starts_with("//"));
            lines.extend(code.map(|line| (format!("{name}/{short}"), line.to_string())));
        }
    }
    lines
}

/// The files of the lines that hold the words, in order.
fn files_with(words: &str) -> Vec<String> {
    let lines = lines().into_iter();
    let found = lines.filter(|(_, line)| line.contains(words));
    found.map(|(file, _)| file).collect()
}

/// One place calls the cipher, and the line behind it counts that call.
#[test]
fn the_cipher_has_one_caller() {
    assert_eq!(files_with(".encrypt("), ["cmac/lib.rt"]);
    let lines = lines();
    let at = lines
        .iter()
        .position(|(_, line)| line.contains(".encrypt("));
    let behind = &lines[at.expect("the call") + 1].1;
    assert_eq!(behind, "count += 1;");
}

/// Bytes are tagged for the subkeys, of a node's message and of a journal's. A node's is tagged to be compared, and to be put; so is a
/// journal's, and both times its count is left.
#[test]
fn tags_are_made_of_messages_and_journals() {
    assert_eq!(
        files_with("tag_under("),
        ["cmac/lib.rt"; 3],
        "its head and two calls"
    );
    for parts in [
        "(&aes, &[0; 32], &[0; 16])",
        "(&self.aes, &self.subkeys, message)",
    ] {
        let made = format!("tag_under{parts}");
        assert_eq!(files_with(&made), ["cmac/lib.rt"], "{made}");
    }
    let callers = files_with("context.tag(");
    let journals = ["recovery/within.rt"; 2];
    assert_eq!(callers[..1], ["card/message.rt"]);
    assert_eq!(callers[1..], journals);
    for message in ["filled.message()).value", "journal.message()).value"] {
        let made = format!("context.tag({message}");
        assert_eq!(files_with(&made), journals[..1], "{made}");
    }
    let messages = files_with(".tag(context)");
    assert_eq!(messages, ["card/view.rt", "stamp/lib.rt"]);
    let all = files_with(".tag(");
    assert_eq!(all.len(), callers.len() + messages.len());
}

/// A context is made once in each of read, write, check, the making of an empty card, a plan, a journalled write and a recovery, and
/// each of these is handed to once.
#[test]
fn each_call_makes_one_context() {
    let mut makers = vec!["work/lib.rt"; 4];
    makers.extend([
        "split/within.rt",
        "recovery/within.rt",
        "recovery/within.rt",
    ]);
    assert_eq!(files_with("Context::new("), makers);
    for work in ["blank", "read", "write", "check", "wipe"] {
        let call = format!("work::{work}(");
        assert_eq!(files_with(&call), ["calls/lib.rt"], "{call}");
    }
    assert_eq!(files_with("within::plan("), ["split/lib.rt"]);
    assert_eq!(files_with(".lay("), ["split/within.rt"]);
    // pat's is host_split::plan.
    assert_eq!(
        files_with("split::plan("),
        ["host_split/lib.rt", "pat/lib.rt"]
    );
    assert_eq!(files_with("host_split::plan("), ["pat/lib.rt"]);
    for part in ["walk::path(", "walk::all(", ".stamp(", "stamp::blank("] {
        assert_eq!(files_with(part), ["work/lib.rt"], "{part}");
    }
    let within = ["work/lib.rt", "recovery/within.rt"];
    assert_eq!(files_with("write_under(&context, "), within);
    assert_eq!(files_with("within::write("), ["recovery/lib.rt"]);
    assert_eq!(files_with("within::recover("), ["recovery/lib.rt"]);
    assert_eq!(files_with("recovery::write("), ["host_journal/lib.rt"]);
    assert_eq!(files_with("recovery::recover("), ["host_journal/lib.rt"]);
    let pairs = files_with("walk::pairs(");
    assert_eq!(pairs, ["work/lib.rt", "split/within.rt"]);
}

/// A function for C: its head with its clauses, and its body.
#[derive(Debug, PartialEq)]
struct Function {
    name: String,
    head: String,
    body: String,
}

/// The functions for C of a file of the product, in order.
fn functions_for_c(file: &str) -> Vec<Function> {
    let of_file = |(named, line): (String, String)| (named == file).then_some(line);
    let code: Vec<String> = lines().into_iter().filter_map(of_file).collect();
    let begins = code
        .iter()
        .enumerate()
        .filter(|(_, line)| line.starts_with("pub extern \"C\" fn "));
    let function = |(at, line): (usize, &String)| {
        let upto = |from: usize, end: &str| {
            let found = code[from..].iter().position(|line| line == end);
            from + found.unwrap_or_else(|| panic!("no {end} behind {line}"))
        };
        let open = upto(at, "{");
        let close = upto(open, "}");
        let name = line["pub extern \"C\" fn ".len()..].split('(').next();
        Function {
            name: name.expect("a name").to_string(),
            head: code[at..open].join(" "),
            body: code[open + 1..close].join(" "),
        }
    };
    begins.map(function).collect()
}

/// The names of the parameters of a head.
fn parameters(head: &str) -> Vec<&str> {
    let (_, behind) = head.split_once('(').expect("parameters");
    let (inside, _) = behind.split_once(')').expect("their end");
    let named = inside.split(',').map(str::trim);
    let named = named.filter(|parameter| !parameter.is_empty());
    named
        .map(|parameter| parameter.split(':').next().expect("a name"))
        .collect()
}

/// What C calls has the signature and the clauses of the function of pat that has its name, of which demand 3 is proved, and only passes
/// on to it.
#[test]
fn exports_pass_on_to_what_is_proved() {
    let (proved, exports) = (
        functions_for_c("pat/lib.rt"),
        functions_for_c("pat_c/lib.rt"),
    );
    assert_eq!(exports.len(), 10);
    let heads = |functions: &[Function]| -> Vec<String> {
        functions.iter().map(|it| it.head.clone()).collect()
    };
    assert_eq!(heads(&exports), heads(&proved));
    for export in &exports {
        assert!(export.head.contains(" ensures { "), "{}", export.name);
        let call = format!(
            "pat::{}({})",
            export.name,
            parameters(&export.head).join(", ")
        );
        assert_eq!(export.body, call);
        assert_eq!(files_with(&call), ["pat_c/lib.rt"]);
    }
}
