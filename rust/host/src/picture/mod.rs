//! `egretfold picture`: a window of a dump of memory copied out into a picture, or a
//! picture painted into it, byte for byte both ways.

mod netpbm;
mod refused;

use crate::address::layouts::LayoutOptions;
use crate::common::failure::{Failure, Outcome};
use crate::common::file::Place;
use crate::common::files::Files;
use crate::common::kinds::Address;
use crate::common::schema;
use crate::common::settings::{self, Setting, Value};
use crate::common::text;
use crate::common::visible;
use crate::decode::settled;
use crate::input::numbers;
use crate::input::source::{self, Source};
use crate::picture::netpbm::Form;
use crate::picture::refused::Trouble;
use clap::Args;
use egretfold::{Layout, Rectangle, Window};
use serde_json::json;
use std::io::Write;
use std::path::{Path, PathBuf};

/// Printed behind the help text.
pub const EXAMPLES: &str = "\
A picture is PGM for elements of 1 or 2 bytes, PPM for 4, or raw: the elements' bytes, row by
row. PPM has channels 0 to 2; channel 3 stays as it stands in memory on the way back. The dump
covers the window's whole span, and may be as long as a frame is.

Examples, from the repository's root:
  egretfold picture --memory samples/camera.mem --at 800 --stream samples/camera.ctm --window output-0 --out frame.ppm --replace
  egretfold picture --memory samples/camera.mem --at 800 --stream samples/camera.ctm --window output-0 --in frame.ppm --to painted.mem --replace
  egretfold picture --memory samples/camera.mem --at 800 --base 800 --pitch 64 --height 32 --size 4 --tiled --rectangle 20,4,24,16 --out - >part.ppm";

#[derive(Args)]
pub struct Options {
    #[command(flatten)]
    layout: LayoutOptions,
    /// The window that this stream of command words sets, instead of a layout
    #[arg(long, value_name = "FILE",
          conflicts_with_all = ["base", "pitch", "height", "size", "tiled", "format", "decimal"])]
    stream: Option<PathBuf>,
    /// With --stream: the window's name, such as output-0, input-3 or conditional-output
    #[arg(long, value_name = "NAME", requires = "stream")]
    window: Option<String>,
    /// With --stream: the file is hex text
    #[arg(long, requires = "stream")]
    hex: bool,
    /// The dump of memory, its bytes as they stand; - for standard input
    #[arg(long, value_name = "FILE")]
    memory: PathBuf,
    /// The address of the dump's first byte, hex
    #[arg(long, value_name = "ADDRESS")]
    at: String,
    /// The pairs from X,Y on, so many columns and rows; the whole window where none is given
    #[arg(long, value_name = "X,Y,COLUMNS,ROWS", value_parser = numbers::four)]
    rectangle: Option<[u32; 4]>,
    /// Copies the rectangle out into this picture; - for standard output, in place of the text
    #[arg(long, value_name = "FILE", conflicts_with = "in")]
    out: Option<PathBuf>,
    /// Paints this picture into the rectangle; the dump itself is left as it is
    #[arg(long, value_name = "FILE", requires = "to")]
    r#in: Option<PathBuf>,
    /// With --in: the painted memory; - for standard output, in place of the text
    #[arg(long, value_name = "FILE", requires = "in")]
    to: Option<PathBuf>,
    /// The picture's form: pgm, ppm or raw; by the elements' size, or by the picture, where none is given
    #[arg(long = "as", value_name = "FORM", value_parser = Form::named)]
    form: Option<Form>,
    /// A file that stands where one is written is replaced
    #[arg(long)]
    replace: bool,
    /// One JSON object
    #[arg(long)]
    json: bool,
}

impl Options {
    /// Names the files of the line.
    pub fn name(&self, files: &mut Files) {
        files.reads("--memory", Some(&self.memory));
        files.reads("--stream", self.stream.as_deref());
        files.reads("--in", self.r#in.as_deref());
        files.writes("--out", self.out.as_deref());
        files.writes("--to", self.to.as_deref());
    }

    /// Whether bytes go to standard output, in place of the text.
    pub fn is_binary(&self) -> bool {
        let written = self.out.as_deref().or(self.to.as_deref());
        written.map_or(false, |file| file == Path::new("-"))
    }
}

/// Bytes would be obeyed by a terminal, not shown.
pub fn ask_terminal(is_terminal: bool) -> Outcome {
    if is_terminal {
        Err(Failure::wrong(
            "a picture or memory is nothing for a terminal: name a file, or take --output FILE",
        ))
    } else {
        Ok(())
    }
}

/// What is moved: the window, its rectangle, and the dump.
struct Moved {
    layout: Layout,
    window: Window,
    rectangle: Rectangle,
    /// The dump's name, its bytes, and the address of the first.
    name: String,
    dump: Vec<u8>,
    at: u32,
}

pub fn run(options: &Options, files: &mut Files, out: &mut dyn Write) -> Outcome {
    one_standard_input(options)?;
    if options.out.is_none() && options.r#in.is_none() {
        return Err(Failure::wrong(
            "a picture goes --out FILE, or comes --in FILE with --to FILE for the painted memory",
        ));
    }
    if options.is_binary() && options.json {
        return Err(Failure::wrong(
            "- is standard output, and so is --json's: name a file for one of them",
        ));
    }
    named_for_its_form(options)?;
    let place = place(options)?;
    let (moved, form, bytes) = match work(options) {
        Ok(done) => done,
        Err(trouble) => return trouble.tell(options.json, out),
    };
    match place {
        None => out.write_all(&bytes)?,
        Some(place) => {
            if files.write(Ok(place), &bytes) {
                told(options, &moved, form, bytes.len(), out)?;
            }
        }
    }
    Ok(())
}

/// Reads what is moved and moves it; gives the bytes of the file to be written.
fn work(options: &Options) -> Result<(Moved, Form, Vec<u8>), Trouble> {
    let mut moved = moved(options)?;
    let (form, bytes) = match &options.r#in {
        None => copied(options, &moved)?,
        Some(picture) => painted(options, &mut moved, picture)?,
    };
    Ok((moved, form, bytes))
}

fn one_standard_input(options: &Options) -> Outcome {
    let inputs = [
        Some(&options.memory),
        options.r#in.as_ref(),
        options.stream.as_ref(),
    ];
    let standard = |file: &&PathBuf| source::is_standard(Some(file));
    match inputs.into_iter().flatten().filter(standard).count() {
        0 | 1 => Ok(()),
        _ => Err(Failure::wrong(
            "only one of --memory, --in and --stream can be standard input",
        )),
    }
}

/// Names of forms that other programs write.
const OTHERS: [&str; 8] = ["png", "jpg", "jpeg", "gif", "tif", "tiff", "bmp", "webp"];

/// A picture by a name that says another form would be opened as that, and fail there.
fn named_for_its_form(options: &Options) -> Outcome {
    let picture = options.out.as_deref().or(options.r#in.as_deref());
    let form = picture.and_then(|path| path.extension()?.to_str());
    let form = form.map(str::to_lowercase).unwrap_or_default();
    match (picture, OTHERS.contains(&&*form)) {
        (Some(picture), true) => {
            let (name, form) = (picture.display().to_string(), form.to_uppercase());
            Err(Failure::Wrong(format!(
                "{}: is named as {form} is, and pictures here are PGM, PPM or raw\n  \
                 name it .pgm or .ppm; netpbm's pnmtopng, pngtopnm and the like turn one into the other",
                visible::line(&name)
            )))
        }
        _ => Ok(()),
    }
}

/// Where the bytes go: a file, or nowhere for standard output. What stands there is
/// replaced only where that is asked for.
fn place(options: &Options) -> Outcome<Option<Place>> {
    if options.is_binary() {
        return Ok(None);
    }
    let written = options.out.as_deref().or(options.to.as_deref());
    let place = written.map(Place::of).transpose()?;
    match place {
        Some(place) if place.stands.is_file() && !options.replace => {
            Err(place.failed("stands there already; --replace replaces it"))
        }
        place => Ok(place),
    }
}

fn moved(options: &Options) -> Result<Moved, Trouble> {
    let at = options.layout.address(&options.at);
    let at = at.map_err(|text| Failure::Wrong(format!("--at: {text}")))?;
    let layout = match &options.stream {
        Some(stream) => of_stream(options, stream)?,
        None => options.layout.layout()?,
    };
    let window = egretfold::layout(&layout)
        .map_err(|refusal| refused::of_layout(refusal, &layout, &options.layout))?;
    let [x, y, columns, rows] = match options.rectangle {
        Some(rectangle) => rectangle,
        None => [0, 0, window.step, layout.height],
    };
    let mut source = Source::open(Some(&options.memory))?.without_unpacking();
    let name = source.name.clone();
    Ok(Moved {
        layout,
        window,
        rectangle: Rectangle {
            x,
            y,
            columns,
            rows,
        },
        name,
        dump: source.memory(at)?,
        at,
    })
}

/// The layout of a window that the stream's settings have.
fn of_stream(options: &Options, stream: &Path) -> Outcome<Layout> {
    let read = settled::read(stream, options.hex, None, false, &mut std::io::sink())?;
    if let Some(refused) = read.refused {
        return Err(refused);
    }
    let windows: Vec<(&str, Layout)> = read.settings.iter().filter_map(window_of).collect();
    let wanted = options.window.as_deref();
    let found = match (wanted, &windows[..]) {
        (None, [(_, layout)]) => Some(*layout),
        (None, _) => None,
        (Some(name), windows) => windows
            .iter()
            .find(|(known, _)| hyphened(known) == hyphened(name))
            .map(|(_, layout)| *layout),
    };
    found.ok_or_else(|| {
        let names: Vec<String> = windows.iter().map(|(name, _)| hyphened(name)).collect();
        let sets = if names.is_empty() {
            "sets no window".to_string()
        } else {
            format!("sets {}", names.join(", "))
        };
        let wanted = match wanted {
            Some(name) => format!("--window {}: ", visible::line(name)),
            None => "--window is missing: ".to_string(),
        };
        Failure::Wrong(format!("{wanted}{} {sets}", read.name))
    })
}

/// A name as it may be written without quotes.
fn hyphened(name: &str) -> String {
    name.replace(' ', "-")
}

fn window_of(setting: &Setting) -> Option<(&str, Layout)> {
    match &setting.value {
        Value::Array(format) | Value::Output { format, .. } | Value::Store(format) => {
            Some((&setting.name, settings::layout(format)))
        }
        _ => None,
    }
}

/// A room for the rectangle's elements; none for more than a window can have, which
/// the product refuses before it asks for the room.
fn room(moved: &Moved) -> Vec<u8> {
    let Rectangle { columns, rows, .. } = moved.rectangle;
    let pairs = u64::from(columns) * u64::from(rows);
    let bytes = pairs.saturating_mul(moved.layout.size.into());
    if bytes <= u64::from(moved.window.span) {
        vec![0; bytes as usize]
    } else {
        Vec::new()
    }
}

fn copied(options: &Options, moved: &Moved) -> Result<(Form, Vec<u8>), Trouble> {
    let size = moved.layout.size;
    let form = options.form.unwrap_or_else(|| Form::for_size(size));
    takes(form, size)?;
    let elements = copy(moved)?;
    let sides = (moved.rectangle.columns, moved.rectangle.rows);
    Ok((form, netpbm::file(form, sides, size, &elements)))
}

/// The rectangle's elements, by the product.
fn copy(moved: &Moved) -> Result<Vec<u8>, Trouble> {
    let mut elements = room(moved);
    let answer = egretfold::copy_out(
        &moved.layout,
        &moved.rectangle,
        &moved.dump,
        moved.at,
        &mut elements,
    );
    answer.map_err(|refusal| refused::of_call(refusal, moved, None))?;
    Ok(elements)
}

/// The dump with the picture painted into it.
fn painted(
    options: &Options,
    moved: &mut Moved,
    picture: &Path,
) -> Result<(Form, Vec<u8>), Trouble> {
    let mut source = Source::open(Some(picture))?.without_unpacking();
    let name = source.name.clone();
    // More than the largest picture has, with its head.
    let file = source.up_to(1 << 29)?;
    let form = options.form.unwrap_or_else(|| Form::of_begin(&file));
    let size = moved.layout.size;
    takes(form, size)?;
    // What isn't in the picture stays.
    let mut elements = copy(moved)?;
    let sides = (moved.rectangle.columns, moved.rectangle.rows);
    netpbm::elements_of(form, sides, size, &file, &mut elements)
        .map_err(|text| Failure::Wrong(format!("{name}: {text}")))?;
    let answer = egretfold::paint(
        &moved.layout,
        &moved.rectangle,
        &mut moved.dump,
        moved.at,
        &elements,
    );
    let given = Some((&name[..], elements.len()));
    answer.map_err(|refusal| refused::of_call(refusal, moved, given))?;
    Ok((form, std::mem::take(&mut moved.dump)))
}

fn takes(form: Form, size: u32) -> Outcome {
    if form.takes(size) {
        Ok(())
    } else {
        let holds = form.holds();
        Err(Failure::Wrong(format!(
            "{form} holds {holds}, and these have {size}: take --as raw"
        )))
    }
}

/// What was moved, once it stands in its file.
fn told(
    options: &Options,
    moved: &Moved,
    form: Form,
    bytes: usize,
    out: &mut dyn Write,
) -> Outcome {
    let shown = |file: &Path| visible::line(&file.display().to_string());
    let (layout, name) = (&moved.layout, &moved.name);
    let Rectangle {
        x,
        y,
        columns,
        rows,
    } = moved.rectangle;
    let file = options.out.as_deref().or(options.to.as_deref());
    let file = file.map(shown).unwrap_or_default();
    if options.json {
        let value = json!({
            "way": if options.r#in.is_some() { "in" } else { "out" },
            "memory": name,
            "at": Address(moved.at).to_string(),
            "base": Address(layout.base).to_string(),
            "x": x,
            "y": y,
            "columns": columns,
            "rows": rows,
            "size": layout.size,
            "as": form.to_string(),
            "file": file,
            "bytes": bytes,
        });
        schema::line(out, json!({ "picture": value }))?;
        return Ok(());
    }
    let size = text::count(layout.size.into(), "byte");
    let area = format!("{columns} x {rows} elements of {size} from ({x}, {y}) on");
    let layout = text::layout_words(layout);
    writeln!(out, "window   {layout}")?;
    match &options.r#in {
        None => writeln!(out, "copied   {area}, out of {name}")?,
        Some(picture) => {
            let picture = shown(picture);
            writeln!(out, "painted  {area}, by {picture} as {form}, over {name}")?;
        }
    }
    let as_form = match options.r#in {
        None => format!(" as {form}"),
        Some(_) => String::new(),
    };
    writeln!(
        out,
        "written  {file}{as_form}, {}",
        text::count(bytes as u64, "byte")
    )?;
    Ok(())
}
