//! plant FROM TO LIST NAME: writes to TO what is needed to build the model in
//! FROM, with the edits of the file LIST under NAME and, where it has some,
//! under "all". A source that is there already in the same words is left alone,
//! so that little is built; one that FROM does not have is removed.

use std::collections::BTreeMap;
use std::fs;
use std::path::Path;
use std::process::ExitCode;

/// What is needed to build the model.
const PARTS: [&str; 3] = ["Cargo.toml", "Cargo.lock", "src"];

/// Files, by their paths below FROM or TO.
type Files = BTreeMap<String, String>;

fn read(from: &Path, below: &str, files: &mut Files) -> Result<(), String> {
    let path = from.join(below);
    let said = |e| format!("{}: {e}", path.display());
    if path.is_dir() {
        for entry in fs::read_dir(&path).map_err(said)? {
            let name = entry.map_err(said)?.file_name();
            read(from, &format!("{below}/{}", name.to_string_lossy()), files)?;
        }
    } else {
        files.insert(below.into(), fs::read_to_string(&path).map_err(said)?);
    }
    Ok(())
}

/// Some lines of a file, and what stands there instead.
#[derive(Default)]
struct Edit {
    file: String,
    old: String,
    new: String,
}

impl Edit {
    fn apply(&self, files: &mut Files) -> Result<(), String> {
        let text = files.get_mut(&self.file).ok_or(format!("no file {}", self.file))?;
        let old = format!("\n{}", self.old);
        match text.matches(&old).count() {
            1 => *text = text.replacen(&old, &format!("\n{}", self.new), 1),
            times => return Err(format!("{times} times in {}:\n{}", self.file, self.old)),
        }
        Ok(())
    }
}

/// The edits under a name, in their order; none for a name that is not there.
fn edits(list: &str, name: &str) -> Vec<Edit> {
    let mut edits: Vec<Edit> = Vec::new();
    let mut file = "";
    let head = format!("{name}: ");
    let lines = list.lines().skip_while(|line| !line.starts_with(&head)).skip(1);
    for line in lines.take_while(|line| !line.is_empty()) {
        if let Some(old) = line.strip_prefix('-') {
            if !edits.last().is_some_and(|edit| edit.file == file && edit.new.is_empty()) {
                edits.push(Edit { file: file.into(), ..Edit::default() });
            }
            edits.last_mut().unwrap().old += &format!("{old}\n");
        } else if let (Some(new), Some(edit)) = (line.strip_prefix('+'), edits.last_mut()) {
            edit.new += &format!("{new}\n");
        } else {
            file = line;
        }
    }
    edits
}

/// The model in FROM with the edits of a list under "all" and under a name.
fn edited(from: &Path, list: &str, name: &str) -> Result<Files, String> {
    let mut files = Files::new();
    for below in PARTS {
        read(from, below, &mut files)?;
    }
    let list = fs::read_to_string(list).map_err(|e| format!("{list}: {e}"))?;
    for name in ["all", name] {
        let edits = edits(&list, name);
        if edits.is_empty() && name != "all" {
            return Err(format!("no edits under {name}"));
        }
        for edit in edits {
            edit.apply(&mut files).map_err(|said| format!("{name}: {said}"))?;
        }
    }
    Ok(files)
}

fn plant(from: &Path, to: &Path, list: &str, name: &str) -> Result<(), String> {
    let files = edited(from, list, name)?;
    let mut there = Files::new();
    for below in PARTS.into_iter().filter(|below| to.join(below).exists()) {
        read(to, below, &mut there)?;
    }
    for below in there.keys().filter(|below| !files.contains_key(*below)) {
        fs::remove_file(to.join(below)).map_err(|e| format!("{below}: {e}"))?;
    }
    for (below, text) in files {
        if there.get(&below) == Some(&text) {
            continue;
        }
        let path = to.join(below);
        let said = |e| format!("{}: {e}", path.display());
        fs::create_dir_all(path.parent().unwrap()).map_err(said)?;
        fs::write(&path, text).map_err(said)?;
    }
    Ok(())
}

fn main() -> ExitCode {
    let args: Vec<String> = std::env::args().skip(1).collect();
    let done = match &args[..] {
        [from, to, list, name] => plant(Path::new(from), Path::new(to), list, name),
        _ => Err("usage: plant FROM TO LIST NAME".into()),
    };
    match done {
        Ok(()) => ExitCode::SUCCESS,
        Err(said) => {
            eprintln!("plant: {said}");
            ExitCode::from(2)
        }
    }
}
