//! A page some of whose parts are written by a program: each stands between a
//! line `<!-- NAME -->` and the next line `<!-- end -->`.

use std::fs;
use std::path::{Path, PathBuf};

pub struct Page {
    path: PathBuf,
    text: String,
}

const END: &str = "<!-- end -->";

impl Page {
    pub fn open(path: &Path) -> Result<Page, String> {
        let text = fs::read_to_string(path).map_err(|error| format!("{path:?}: {error}"))?;
        Ok(Page { path: path.to_path_buf(), text })
    }

    pub fn write(&mut self, name: &str, part: &str) -> Result<(), String> {
        let mark = format!("<!-- {name} -->\n");
        let missing = || format!("{:?} has no part {name}", self.path);
        let start = self.text.find(&mark).ok_or_else(missing)? + mark.len();
        let length = self.text[start..].find(END).ok_or_else(missing)?;
        self.text.replace_range(start..start + length, &format!("\n{part}\n"));
        Ok(())
    }

    pub fn save(&self) -> Result<(), String> {
        fs::write(&self.path, &self.text).map_err(|error| error.to_string())
    }
}
