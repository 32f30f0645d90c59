//! Pictures out of memory and back into it, byte for byte both ways; and the drawings
//! of a survey, held against its rows.

use crate::common::{complained, egretfold, last_line, sample, told, Folder};
use crate::score::well_formed;
use compare::layouts::SIZES;
use compare::random::Random;
use serde_json::Value;
use std::fs;

const CAMERA: &str = "--memory samples/camera.mem --at 800 --stream samples/camera.ctm";
const SURVEY: &str =
    "survey --stream samples/camera.ctm --memory samples/camera.mem --at 800 --value 300";

/// Runs the line, which is fine.
fn fine(line: &str, input: &[u8]) -> Vec<u8> {
    let output = egretfold(line, input);
    assert_eq!(
        output.status.code(),
        Some(0),
        "{line}: {}",
        complained(&output)
    );
    assert_eq!(complained(&output), "", "{line}");
    output.stdout
}

#[test]
fn the_sample_picture_is_the_cameras_frame() {
    let window = format!("picture {CAMERA} --window output-0");
    assert_eq!(
        fine(&format!("{window} --out -"), b""),
        sample("camera.ppm")
    );
    let painted = fine(&format!("{window} --in samples/camera.ppm --to -"), b"");
    assert_eq!(painted, sample("camera.mem"));
}

/// Memory of noise, a window in it, and what is moved of it.
struct Scene {
    memory: Vec<u8>,
    at: u32,
    layout: String,
    size: u32,
    sides: (u32, u32),
    area: String,
}

fn scene(number: u64, size: u32) -> Scene {
    let mut random = Random::of_case(97, 1, number);
    let (pitch, height) = (64 + 4 * random.below(20), random.between(1, 40));
    let tiled = if random.coin() { " --tiled" } else { "" };
    let (before, behind) = (random.below(90), random.below(90));
    let base = 0x1000;
    // More than any of these windows spans.
    let mut memory = vec![0; (before + 144 * 64 * size + behind) as usize];
    random.fill(&mut memory);
    // Memory that begins as gzip's files do is no less memory.
    memory[..3].copy_from_slice(&[0x1F, 0x8B, 8]);
    let (x, y) = (random.below(40), random.below(height));
    let sides = (random.between(1, 64 - x), random.between(1, height - y));
    Scene {
        memory,
        at: base - before,
        layout: format!("--base {base:X} --pitch {pitch} --height {height} --size {size}{tiled}"),
        size,
        sides,
        area: format!("{x},{y},{},{}", sides.0, sides.1),
    }
}

#[test]
fn memory_and_pictures_come_back_byte_for_byte() {
    let folder = Folder::new("there-and-back");
    for (number, size) in (0..).zip(SIZES.into_iter().cycle().take(40)) {
        let scene = scene(number, size);
        let mut forms = vec!["raw"];
        forms.extend(match scene.size {
            1 | 2 => Some("pgm"),
            4 => Some("ppm"),
            _ => None,
        });
        let dump = folder.write("dump", &scene.memory);
        let (at, layout, area) = (scene.at, &scene.layout, &scene.area);
        for form in forms {
            let line = format!(
                "picture --memory {dump} --at {at:X} {layout} --rectangle {area} --as {form}"
            );
            // Out, and in again: memory is as it was.
            let picture = fine(&format!("{line} --out -"), b"");
            let back = fine(&format!("{line} --in - --to -"), &picture);
            assert!(back == scene.memory, "{line}");
            // Another picture in, and out again: it is that picture.
            let mut random = Random::of_case(96, 1, number);
            let mut other = picture.clone();
            let pixels = (scene.sides.0 * scene.sides.1) as usize
                * if form == "ppm" {
                    3
                } else {
                    scene.size as usize
                };
            let head = other.len() - pixels;
            random.fill(&mut other[head..]);
            let painted = fine(&format!("{line} --in - --to -"), &other);
            assert!(painted != scene.memory && painted.len() == scene.memory.len());
            folder.write("dump", &painted);
            assert!(fine(&format!("{line} --out -"), b"") == other, "{line}");
            folder.write("dump", &scene.memory);
        }
    }
}

#[test]
fn a_picture_shows_its_pairs_elements() {
    // Pair (37, 18) of C3's layout stands at 9828.
    let mut memory = vec![0; 12_288];
    memory[9828..9832].copy_from_slice(&[1, 2, 3, 4]);
    let layout = "--at 0 --pitch 100 --height 20 --size 4 --tiled --rectangle 36,18,3,1";
    let raw = fine(
        &format!("picture --memory - {layout} --as raw --out -"),
        &memory,
    );
    assert_eq!(raw, [0, 0, 0, 0, 1, 2, 3, 4, 0, 0, 0, 0]);
    let ppm = fine(&format!("picture --memory - {layout} --out -"), &memory);
    assert_eq!(ppm, b"P6\n3 1\n255\n\0\0\0\x01\x02\x03\0\0\0");
}

#[test]
fn a_file_that_stands_there_is_replaced_only_where_that_is_asked() {
    let folder = Folder::new("stands-there");
    let kept = folder.write("kept", b"kept");
    let line = format!("picture {CAMERA} --window output-0 --out {kept}");
    let output = egretfold(&line, b"");
    assert_eq!(output.status.code(), Some(2));
    assert!(complained(&output).contains("--replace"));
    assert_eq!(fs::read(&kept).unwrap(), b"kept");
    fine(&format!("{line} --replace"), b"");
    assert_eq!(fs::read(&kept).unwrap(), sample("camera.ppm"));
    // Not over what is read, also where it is asked for.
    let dump = folder.write("dump", &sample("camera.mem"));
    let own = format!(
        "picture --memory {dump} --at 800 --stream samples/camera.ctm --window output-0 \
         --in samples/camera.ppm --to {dump} --replace"
    );
    let output = egretfold(&own, b"");
    assert_eq!(output.status.code(), Some(2));
    assert!(complained(&output).contains("which is read"));
}

#[test]
fn a_refused_picture_leaves_no_file() {
    let folder = Folder::new("no-file");
    let file = folder.0.join("out.ppm");
    let line = format!(
        "picture {CAMERA} --window output-0 --rectangle 0,0,65,1 --out {}",
        file.display()
    );
    assert_eq!(egretfold(&line, b"").status.code(), Some(1));
    assert!(!file.exists());
}

#[test]
fn a_surveys_drawings_say_what_its_rows_say() {
    let folder = Folder::new("survey");
    let (pgm, svg) = (folder.0.join("survey.pgm"), folder.0.join("survey.svg"));
    let drawn = format!("--pgm {} --svg {}", pgm.display(), svg.display());
    let text = fine(&format!("{SURVEY} {drawn}"), b"");
    // Once more, over the first ones.
    assert_eq!(fine(&format!("{SURVEY} {drawn}"), b""), text);
    let json = told(&egretfold(&format!("{SURVEY} --json"), b""));
    let bits: String = json
        .lines()
        .map(|line| serde_json::from_str::<Value>(line).expect("JSON"))
        .filter_map(|line| Some(line["pairs"].as_str()?.to_string()))
        .collect();
    let picture = fs::read(&pgm).expect("it is drawn");
    let pixels = picture.strip_prefix(b"P5\n# by egretfold\n48 20\n255\n");
    let pixels = pixels.expect("its head");
    let wanted: Vec<u8> = bits.bytes().map(|bit| (bit - b'0') * 255).collect();
    assert_eq!(pixels, wanted);
    let passed = last_line(&json)["survey"]["passed"].as_u64();
    let white = pixels.iter().filter(|pixel| **pixel == 255).count();
    assert_eq!(passed, Some(white as u64));
    // The text has them too, a character a pair.
    let text = String::from_utf8(text).expect("text");
    let drawing: String = text.lines().rev().take(20).collect::<Vec<_>>().concat();
    assert_eq!(drawing.matches('#').count(), white);
    let drawing = fs::read_to_string(&svg).expect("it is drawn");
    assert!(well_formed(&drawing) > 5);
    assert!(drawing.contains(&format!("<title>{white} of 960 pairs pass</title>")));
}

#[test]
fn of_a_long_dump_the_part_is_lent_that_holds_the_domain() {
    let mut long = vec![0; 100_000];
    long.extend(sample("camera.mem"));
    let at = 0x800 + 0x40_0000 - 100_000;
    // The same windows, 400000 hex higher.
    let stream = "C0020D00 402800 10040 18 C0001B00 4 C0030700 0 0 2F 13";
    let folder = Folder::new("long");
    let (long, stream) = (
        folder.write("long", &long),
        folder.write("stream", stream.as_bytes()),
    );
    let line = format!("survey --stream {stream} --hex --memory {long} --at {at:X} --value 300");
    let whole = told(&egretfold(&format!("{line} --json"), b""));
    let short = told(&egretfold(&format!("{SURVEY} --json"), b""));
    let rows = |text: &str| text.lines().take(20).map(String::from).collect::<Vec<_>>();
    assert_eq!(rows(&whole), rows(&short));
}
