//! Plants faults: makes eight copies of the second program, each with one sentence
//! put wrong. They are the five mistakes that document 01 names, one that only a block
//! write can show, one that only a mark on a second page can show, and one that only a
//! page erased but for some bytes can show; they are there to show that the comparison
//! finds them. The second program itself stays as it is.

use std::env;
use std::fmt::Write;
use std::fs;
use std::path::{Path, PathBuf};

struct Fault {
    /// The name of the copy.
    name: &'static str,
    /// The file of the second program that is put wrong ..
    file: &'static str,
    /// .. by putting in the place of this ..
    right: &'static str,
    /// .. that.
    wrong: &'static str,
}

const FAULTS: [Fault; 8] = [
    // "Taking the first copy in a log block for the newest."
    Fault {
        name: "first_copy",
        file: "blocks.rs",
        right: "rposition(|copy| *copy == offset)",
        wrong: "position(|copy| *copy == offset)",
    },
    // "Erasing the old data block before the last copied page is there." In a merge.
    Fault {
        name: "early_erase",
        file: "plan.rs",
        right: "
        self.copy(l, content);
        self.erase(log.block);
        self.erase_data_block(l);
",
        wrong: "
        self.copy(l, content);
        let last_page = self.steps.pop();
        self.erase_data_block(l);
        self.steps.extend(last_page);
        self.erase(log.block);
",
    },
    // "Treating a half-made copy as a log block after a cut: it must go."
    Fault {
        name: "half_copy",
        file: "blocks.rs",
        right: "used.kind == Kind::Log",
        wrong: "[Kind::Log, Kind::Copy].contains(&used.kind)",
    },
    // "Calling a page erased because its data is all 255: a written page may be so."
    Fault {
        name: "erased_by_data",
        file: "card.rs",
        right: "*self.spare(page) == [255; SPARE_BYTES] && *self.data(page)",
        wrong: "*self.data(page)",
    },
    // "Calling a log block complete whose P pages are all programmed but out of order."
    Fault {
        name: "complete_out_of_order",
        file: "block.rs",
        right: "self.offsets.iter().copied().eq(0..pages)",
        wrong: "self.offsets.len() == pages",
    },
    // Leaving, in a block write, the old data block where there is no log block.
    Fault {
        name: "data_left",
        file: "plan.rs",
        right: "
        plan.erase(log.block);
    }
    plan.erase_data_block(l);
",
        wrong: "
        plan.erase(log.block);
        plan.erase_data_block(l);
    }
",
    },
    // Looking for the maker's mark on the first page of a block alone.
    Fault {
        name: "first_page_alone",
        file: "card.rs",
        right: "const MARK_PAGES: [usize; 2] = [0, 1];",
        wrong: "const MARK_PAGES: [usize; 1] = [0];",
    },
    // Calling a page erased without a look at the last 64 of its data bytes.
    Fault {
        name: "last_group_not_looked_at",
        file: "card.rs",
        right: "*self.data(page) == [255; DATA_BYTES]",
        wrong: "self.data(page)[..DATA_BYTES - 64] == [255; DATA_BYTES - 64]",
    },
];

fn main() {
    let second = Path::new(env!("CARGO_MANIFEST_DIR")).join("../second/src");
    println!("cargo:rerun-if-changed={}", second.display());
    println!("cargo:rerun-if-changed=build.rs");
    let out = PathBuf::from(env::var_os("OUT_DIR").expect("cargo sets OUT_DIR"));
    let mut modules = String::new();
    for fault in FAULTS {
        plant(&fault, &second, &out.join(fault.name));
        let root = out.join(fault.name).join("lib.rs");
        let _ = writeln!(modules, "#[path = {root:?}]\npub mod {};", fault.name);
    }
    fs::write(out.join("faults.rs"), modules).expect("the folder of the build is writable");
}

/// Copies the second program to a folder, with one sentence put wrong. As a module
/// it finds its own files by the name of the copy.
fn plant(fault: &Fault, second: &Path, copy: &Path) {
    fs::create_dir_all(copy).expect("the folder of the build is writable");
    for entry in fs::read_dir(second).expect("the second program is there") {
        let path = entry.expect("it can be read").path();
        let name = path.file_name().expect("a file has a name");
        let mut text = fs::read_to_string(&path).expect("it can be read");
        if name == fault.file {
            let places = text.matches(fault.right).count();
            assert_eq!(places, 1, "{}: {:?} is not there once", fault.file, fault.right);
            text = text.replace(fault.right, fault.wrong);
        }
        let text = text.replace("crate::", &format!("crate::faults::{}::", fault.name));
        fs::write(copy.join(name), text).expect("the folder of the build is writable");
    }
}
