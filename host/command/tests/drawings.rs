//! `fmap diff --svg`.

mod common;

use common::Folder;
use std::fs;
use std::path::{Path, PathBuf};

/// Two images by their layouts.
fn images(folder: &Folder, old: &str, new: &str) -> (PathBuf, PathBuf) {
    let image = |name: &str, text: &str| {
        let (layout, path) = (folder.file(&format!("{name}.fmd"), text), folder.path(&format!("{name}.bin")));
        let _ = fs::remove_file(&path);
        run!["fmd", "write", layout, path, "--create"].done();
        path
    };
    (image("old", old), image("new", new))
}

fn drawn(folder: &Folder, old: &Path, new: &Path) -> String {
    let target = folder.path("update.svg");
    let ended = run!["fmap", "diff", old, new, "--svg", target];
    assert!(matches!(ended.status, Some(0 | 1)), "{}", ended.err);
    fs::read_to_string(target).expect("a drawing")
}

/// The elements by name and attributes, in order: every one is closed, and what is text is escaped.
fn elements(svg: &str) -> Vec<String> {
    let (mut open, mut found) = (Vec::new(), Vec::new());
    let mut rest = svg;
    while let Some(at) = rest.find('<') {
        text(&rest[..at]);
        let (tag, after) = rest[at + 1..].split_once('>').expect("an element's end");
        rest = after;
        if let Some(name) = tag.strip_prefix('/') {
            assert_eq!(open.pop().as_deref(), Some(name), "{tag}");
            continue;
        }
        assert!(!tag.contains('<') && tag.matches('"').count() % 2 == 0, "{tag}");
        found.push(tag.trim_end_matches('/').to_string());
        if !tag.ends_with('/') {
            open.push(tag.split(' ').next().expect("a name").to_string());
        }
    }
    text(rest);
    assert!(open.is_empty(), "{open:?}");
    found
}

fn text(text: &str) {
    for part in text.split('&').skip(1) {
        let known = ["amp;", "lt;", "gt;", "quot;", "#39;"];
        assert!(known.iter().any(|name| part.starts_with(name)), "&{part}");
    }
}

fn of_class<'a>(elements: &'a [String], name: &str, class: &str) -> Vec<&'a String> {
    let ends = format!("class=\"{class}\"");
    let matching = |element: &&String| element.starts_with(&format!("{name} ")) && element.ends_with(&ends);
    elements.iter().filter(matching).collect()
}

fn attribute(element: &str, name: &str) -> f64 {
    let (_, rest) = element.split_once(&format!(" {name}=\"")).expect("an attribute");
    rest.split('"').next().expect("a value").parse().expect("a number")
}

const OLD: &str = "CHIP 64K { FMAP 4K CAL(PRESERVE)@8K 8K LOG@32K 16K SET@48K 4K GONE }";
const NEW: &str = "CHIP 64K { FMAP 4K LOG@8K 16K CAL@32K 8K { IN 1K } SET(PRESERVE)@48K 4K }";

#[test]
fn both_maps_to_scale() {
    let folder = Folder::new();
    let (old, new) = images(&folder, OLD, NEW);
    let elements = elements(&drawn(&folder, &old, &new));
    // One in each map, and one in the legend.
    let carried = of_class(&elements, "rect", "carried");
    assert_eq!(carried.len(), 3);
    let (from, to) = (carried[0], carried[1]);
    let bars = of_class(&elements, "rect", "bar");
    let top = attribute(bars[0], "y");
    let unit = attribute(bars[0], "height") / 65_536.0;
    let near = |a: f64, b: f64| (a - b).abs() < 0.2;
    assert!(
        near(attribute(from, "y"), top + 8192.0 * unit) && near(attribute(from, "height"), 8192.0 * unit)
    );
    assert!(near(attribute(to, "y"), top + 32_768.0 * unit) && near(attribute(to, "height"), 8192.0 * unit));
    assert!(attribute(bars[0], "x") + attribute(bars[0], "width") < attribute(bars[1], "x"));
    assert_eq!(of_class(&elements, "path", "band").len(), 1);
    assert_eq!(of_class(&elements, "path", "leader").len(), 10);
    // SET would be lost: in both maps, and in the legend; one mark.
    assert_eq!(of_class(&elements, "rect", "lost").len(), 3);
    assert_eq!(of_class(&elements, "path", "cross").len(), 1);
    assert_eq!(of_class(&elements, "rect", "overwritten").len(), 2);
    assert_eq!(of_class(&elements, "rect", "alone").len(), 2);
    let legend = of_class(&elements, "text", "note").len();
    assert_eq!(legend, 7);
}

/// The inner area lies within the outer one, also sideways.
#[test]
fn areas_in_areas() {
    let folder = Folder::new();
    let levels: String = (1..8).map(|level| format!("L{level} {{ ")).collect();
    let text = format!("CHIP 64K {{ FMAP 4K {levels} LEAF(PRESERVE) 1K {} }}", "} ".repeat(7));
    let (old, new) = images(&folder, &text, &text);
    let elements = elements(&drawn(&folder, &old, &new));
    let left = of_class(&elements, "rect", "left");
    let widths: Vec<f64> = left[1..8].iter().map(|rect| attribute(rect, "width")).collect();
    assert!(widths.windows(2).all(|two| two[0] > two[1]) && widths[6] > 20.0, "{widths:?}");
}

#[test]
fn many_areas_have_room_for_their_names() {
    let folder = Folder::new();
    let sections: String = (1..128).map(|k| format!("S{k}(PRESERVE)@{} 16 ", 8192 + 32 * k)).collect();
    let (old, new) = images(
        &folder,
        &format!("CHIP 16M {{ FMAP 8K {sections} }}"),
        &format!("CHIP 15M {{ FMAP 8K {sections} }}"),
    );
    let elements = elements(&drawn(&folder, &old, &new));
    assert_eq!(of_class(&elements, "path", "band").len(), 127);
    let names: Vec<&String> = elements.iter().filter(|element| element.contains("class=\"name")).collect();
    assert_eq!(names.len(), 256);
    let mut lines: Vec<f64> = names[..128].iter().map(|name| attribute(name, "y")).collect();
    lines.sort_by(f64::total_cmp);
    assert!(lines.windows(2).all(|two| two[1] - two[0] > 15.0), "{lines:?}");
    let height = attribute(&elements[0], "height");
    assert!(lines.iter().all(|line| *line > 0.0 && *line < height));
    // The shorter image has the shorter bar.
    let bars = of_class(&elements, "rect", "bar");
    let ratio = attribute(bars[1], "height") / attribute(bars[0], "height");
    assert!((ratio - 15.0 / 16.0).abs() < 0.001, "{ratio}");
}

#[test]
fn names_are_escaped() {
    let folder = Folder::new();
    let text = "A<B>&\"'; 64K { FMAP 4K <&>(PRESERVE) 1K </svg>' 1K ]]> 1K &amp; 1K }";
    let (old, _) = images(&folder, text, text);
    let odd = folder.path("<&\u{7}>\".bin");
    fs::copy(&old, &odd).expect("a copy");
    let svg = drawn(&folder, &old, &odd);
    elements(&svg);
    for shown in [
        ">&lt;&amp;&gt;<",
        ">&lt;/svg&gt;&#39;<",
        ">]]&gt;<",
        ">&amp;amp;<",
        "new: A&lt;B&gt;&amp;&quot;&#39;;",
    ] {
        assert!(svg.contains(shown), "{shown}");
    }
    assert!(!svg.contains('\u{7}'));
}

#[test]
fn where_the_drawing_goes() {
    let folder = Folder::new();
    let (old, new) = images(&folder, OLD, NEW);
    let before = (fs::read(&old).expect("an image"), fs::read(&new).expect("an image"));
    let svg = drawn(&folder, &old, &new);
    let ended = run!["fmap", "diff", old, new, "--svg", "-"];
    assert_eq!((ended.status, ended.out), (Some(1), svg.clone()));
    let both = run!["fmap", "diff", old, new, "--svg", "-", "--json"];
    assert_eq!(both.status, Some(2));
    assert!(both.err.contains("--svg - and --json both ask for standard output"), "{}", both.err);
    for image in [&old, &new] {
        run!["fmap", "diff", old, new, "--svg", image].usage("are the same file");
    }
    let json = run!["fmap", "diff", old, new, "--svg", folder.path("other.svg"), "--json"];
    let json = testkit::json::parse(&json.out).expect("JSON");
    assert_eq!(json.text("svg"), folder.path("other.svg").display().to_string());
    assert_eq!(fs::read_to_string(folder.path("other.svg")).expect("a drawing"), svg);
    assert_eq!((fs::read(&old).expect("an image"), fs::read(&new).expect("an image")), before);
}

/// docs/update.svg is what README.md's command draws.
#[test]
fn the_drawing_of_the_readme() {
    let folder = Folder::new();
    let examples = testkit::host().join("../examples");
    for (layout, image) in [("sample10.fmd", "worker.bin"), ("update.fmd", "update.bin")] {
        run!["fmd", "write", examples.join(layout), folder.path(image), "--create"].done();
    }
    let mut worker = fs::read(folder.path("worker.bin")).expect("an image");
    worker[3 << 20..][..17].copy_from_slice(b"screen 45 degrees");
    fs::write(folder.path("worker.bin"), worker).expect("an image");
    let words = ["fmap", "diff", "worker.bin", "update.bin", "--svg", "-"];
    let output = common::command().args(words).current_dir(&folder.0).output().expect("the command");
    let kept = fs::read(testkit::host().join("../docs/update.svg")).expect("a drawing");
    assert!(output.stdout == kept, "docs/update.svg is another drawing");
}
