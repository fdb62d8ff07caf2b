//! The command line from end to end, each test in a folder of its own.

use std::fs;
use std::path::{Path, PathBuf};
use std::process::{Command, Output};

const EXAMPLES: &str = concat!(env!("CARGO_MANIFEST_DIR"), "/../examples");

/// The single sample's sheet after 100 passes with tolerance 64.
const SHEET: &[u8] = b"L\x03\0\x03\0C\0\0\0\x01\0K\xFFK\xFFK\x01K\x01E";

struct Folder(PathBuf);

impl Folder {
    fn new(name: &str) -> Folder {
        let path = std::env::temp_dir().join(format!("puzhenim-{}-{}", name, std::process::id()));
        fs::create_dir_all(&path).unwrap();
        Folder(path)
    }

    fn put(&self, name: &str, bytes: &[u8]) {
        fs::write(self.0.join(name), bytes).unwrap();
    }

    fn get(&self, name: &str) -> Vec<u8> {
        fs::read(self.0.join(name)).unwrap()
    }

    fn names(&self) -> Vec<String> {
        let entries = fs::read_dir(&self.0).unwrap();
        let mut names: Vec<String> = entries.map(|entry| entry.unwrap().file_name().into_string().unwrap()).collect();
        names.sort();
        names
    }

    fn run(&self, words: &[&str]) -> Output {
        Command::new(env!("CARGO_BIN_EXE_puzhenim")).args(words).current_dir(&self.0).output().unwrap()
    }

    /// Standard output of a run that is done.
    fn done(&self, words: &[&str]) -> String {
        let output = self.run(words);
        assert_eq!((output.status.code(), text(&output.stderr)), (Some(0), String::new()), "{:?}", words);
        text(&output.stdout)
    }

    /// Standard error of a run that ends with this status and leaves the folder as it was.
    fn fails(&self, status: i32, words: &[&str]) -> String {
        let contents = |names: &[String]| -> Vec<Vec<u8>> { names.iter().map(|name| self.get(name)).collect() };
        let names = self.names();
        let before = contents(&names);
        let output = self.run(words);
        assert_eq!((output.status.code(), text(&output.stdout)), (Some(status), String::new()), "{:?}", words);
        assert_eq!(self.names(), names);
        assert_eq!(contents(&names), before);
        text(&output.stderr)
    }
}

impl Drop for Folder {
    fn drop(&mut self) {
        let _ = fs::remove_dir_all(&self.0);
    }
}

fn text(bytes: &[u8]) -> String {
    String::from_utf8(bytes.to_vec()).unwrap()
}

fn example(name: &str) -> String {
    Path::new(EXAMPLES).join(name).to_str().unwrap().into()
}

#[test]
fn slices_the_sample_as_the_layer_program_does() {
    let folder = Folder::new("sample");
    let report = folder.done(&["slice", &example("sample.layer"), "-o", "sheet"]);
    assert_eq!(folder.get("sheet"), SHEET);
    assert_eq!(report, "passes: 10 (settled), vertices removed: 0\n");
    let words = ["slice", &example("sample.layer"), "-o", "again", "--passes", "100", "--tolerance=64"];
    folder.done(&words);
    assert_eq!(folder.get("again"), SHEET);
    assert_eq!(folder.names(), ["again", "sheet"]);
}

#[test]
fn slices_with_other_options() {
    let folder = Folder::new("options");
    let report = folder.done(&["slice", &example("sample.layer"), "--output", "sheet", "--passes", "1"]);
    assert_eq!(report, "passes: 1 (not settled), vertices removed: 0\n");
    assert_eq!(folder.get("sheet")[11..19], [b'K', 179, b'K', 179, b'K', 77, b'K', 77]);
}

#[test]
fn an_output_replaces_what_was_there() {
    let folder = Folder::new("replaces");
    folder.put("sheet", b"old");
    folder.done(&["slice", &example("sample.layer"), "-o", "sheet"]);
    assert_eq!(folder.get("sheet"), SHEET);
    assert_eq!(folder.names(), ["sheet"]);
}

#[test]
fn an_output_goes_where_a_link_leads() {
    let folder = Folder::new("link");
    folder.put("sheet", b"old");
    std::os::unix::fs::symlink("sheet", folder.0.join("link")).unwrap();
    folder.done(&["slice", &example("sample.layer"), "-o", "link"]);
    assert_eq!(folder.get("sheet"), SHEET);
    assert!(fs::symlink_metadata(folder.0.join("link")).unwrap().file_type().is_symlink());
    folder.done(&["slice", &example("sample.layer"), "-o", "/dev/null"]);
}

#[test]
fn standard_output_is_a_dash() {
    let folder = Folder::new("dash");
    let output = folder.run(&["slice", &example("sample.layer"), "-o", "-"]);
    assert_eq!((output.status.code(), &output.stdout[..]), (Some(0), SHEET));
}

#[test]
fn every_example_goes_round() {
    let folder = Folder::new("round");
    for name in ["sample.layer", "passages.layer", "block.pbm"] {
        let input = example(name);
        folder.done(&["slice", &input, "-o", "sheet"]);
        assert!(folder.done(&["check", &input, "sheet"]).starts_with("The sheet is good"));
        folder.put("roll", b"E");
        assert_eq!(folder.done(&["roll", &input, "sheet", "roll", "-o", "sheet2"]), "commands done: 0\n");
        assert_eq!(folder.get("sheet"), folder.get("sheet2"));
        folder.done(&["plan", &input, "sheet", "-o", "list"]);
        folder.done(&["draw", &input, "sheet", "-o", "picture.svg"]);
        folder.done(&["draw", &input, "-o", "traced.svg"]);
    }
}

#[test]
fn pictures_of_all_kinds_give_the_same_layer() {
    let folder = Folder::new("pictures");
    // Eleven columns, so that rows have spare bits; the comments stand where a head and a plain raster may have them.
    let rows = ["00000000000", "00110000010", "00100000110", "00000000000"];
    folder.put("packed.pbm", format!("P1\n11 4\n{}\n", rows.join("\n")).as_bytes());
    let spaced: String = rows.concat().chars().flat_map(|digit| [digit, ' ']).collect();
    folder.put("spaced.pbm", format!("P1 # plain\n# two lines\n 11# wide\n4\n{}# end", spaced).as_bytes());
    let padding = [0b11111, 0b00111, 0b11000, 0];
    let raw: Vec<u8> =
        rows.iter().zip(padding).flat_map(|(row, pad)| (u16::from_str_radix(row, 2).unwrap() << 5 | pad).to_be_bytes()).collect();
    folder.put("raw.pbm", &[b"P4\n# raw\n11 4\n", &raw[..]].concat());
    folder.put("layer", b"L\x0B\0\x04\0\0\0\x04\x03\x0C\x02\0\0");
    for name in ["packed.pbm", "spaced.pbm", "raw.pbm", "layer"] {
        folder.done(&["slice", name, "-o", &format!("{}.sheet", name)]);
        assert_eq!(folder.get(&format!("{}.sheet", name)), folder.get("packed.pbm.sheet"), "{}", name);
    }
}

#[test]
fn wrong_pictures_are_refused() {
    let folder = Folder::new("wrong");
    let refused = |bytes: &[u8]| {
        folder.put("wrong.pbm", bytes);
        let words = folder.fails(1, &["slice", "wrong.pbm", "-o", "sheet"]);
        words.strip_prefix("puzhenim: wrong.pbm: ").expect("the file is named").trim_end().to_string()
    };
    assert_eq!(refused(b"P1\n3 3\n000010"), "the picture is cut short: it should have 3 rows of 3 samples");
    assert_eq!(refused(b"P1\n3 3\n0 0 0 0 1 0 0 "), "the picture is cut short: it should have 3 rows of 3 samples");
    assert_eq!(refused(b"P1\n3 3\n000020000"), "a sample is neither 0 nor 1, at byte 11");
    assert_eq!(refused(b"P1\n3 3\n000010000\n0"), "more follows the picture, at byte 17");
    assert_eq!(refused(b"P1\n3 x\n"), "the picture's height is no number of at least 1");
    assert_eq!(refused(b"P4\n99999999999999999999999 3\n"), "the picture's width is no number of at least 1");
    assert_eq!(refused(b"P4\n4000000000 4000000000\n"), "the picture is cut short: it should have 4000000000 rows of 4000000000 samples");
    assert_eq!(refused(b"P4\n3 3\r\n\x00\x40\x00"), "more follows the picture, at byte 10");
    assert!(refused(b"P4 18446744073709551615 1 ").starts_with("the picture is cut short"));
    assert_eq!(refused(b"P5\n3 3\n"), "neither a portable bitmap (P1 or P4) nor a layer file");
    assert_eq!(refused(b"L\x03\0\x03"), "neither a portable bitmap (P1 or P4) nor a layer file");
    assert_eq!(refused(&[b"P4 70000 2 ", &[0; 17500][..]].concat()), "a side is not 2 to 1024 samples (question 1)");
    assert_eq!(refused(&[b"P4 1025 2 ", &[0; 258][..]].concat()), "a side is not 2 to 1024 samples (question 1)");
    assert_eq!(refused(b"L\xFF\xFF\xFF\xFF"), "a side is not 2 to 1024 samples (question 1)");
    assert_eq!(refused(b"L\0\0\0\0"), "a side is not 2 to 1024 samples (question 1)");
    assert_eq!(refused(b"L\x03\0\x03\0\0"), "the bitmap has another length than its sides ask for (question 2)");
}

#[test]
fn a_border_is_required_and_can_be_added() {
    let folder = Folder::new("border");
    folder.put("full.pbm", b"P1 1 1 1");
    assert!(folder.fails(1, &["slice", "full.pbm", "-o", "sheet"]).contains("(question 1)"));
    folder.done(&["slice", "full.pbm", "-o", "sheet", "--pad"]);
    assert_eq!(folder.get("sheet"), SHEET);
    folder.done(&["check", "--pad", "full.pbm", "sheet"]);

    folder.put("edge.pbm", b"P1 3 3 000 001 000");
    let words = folder.fails(1, &["slice", "edge.pbm", "-o", "sheet"]);
    assert!(words.starts_with("puzhenim: edge.pbm: a border sample is inside: sample 5 (question 4)\nThat is column 2, row 1 from below."));
    let words = folder.fails(2, &["slice", &example("sample.layer"), "--pad", "-o", "sheet"]);
    assert!(words.starts_with("puzhenim: --pad is for pictures"));
}

#[test]
fn a_roll_edits_the_sheet() {
    let folder = Folder::new("roll");
    folder.put("sheet", SHEET);
    folder.put("roll", b"S\0\0\0\x01\0\x80E");
    assert_eq!(folder.done(&["roll", &example("sample.layer"), "sheet", "roll", "-o", "sheet"]), "commands done: 1\n");
    assert_eq!(folder.get("sheet")[12], 128);
}

#[test]
fn a_roll_that_is_refused_writes_nothing() {
    let folder = Folder::new("refused-roll");
    folder.put("sheet", SHEET);
    folder.put("roll", b"S\0\0\0\x01\0\x80X\0\0\0\x01\0E");
    let words = folder.fails(1, &["roll", &example("sample.layer"), "sheet", "roll", "-o", "sheet2"]);
    let expected = "puzhenim: roll: a redrawn edge does not cross each of its removed sticks: command 2 of the roll, at byte 7 \
                    (question 11)\nCommands done before it: 1. Nothing is written.\n";
    assert_eq!(words, expected);
    folder.put("cut", b"S\0\0\0\x01\0\x80");
    let words = folder.fails(1, &["roll", &example("sample.layer"), "sheet", "cut", "-o", "sheet"]);
    assert_eq!(words, "puzhenim: cut: the roll or sheet is not well formed: command at byte 7 (question 8)\n");
}

/// The sheet with the vertex on its first stick pinned.
const PINNED: &[u8] = b"L\x03\0\x03\0C\0\0\0\x01\0N\xFFK\xFFK\x01K\x01E";

#[test]
fn a_roll_pins_a_vertex() {
    let folder = Folder::new("pin");
    folder.put("sheet", SHEET);
    folder.put("pin", b"P\0\0\0\x01\0E");
    let pin = ["roll", &example("sample.layer"), "sheet", "pin", "-o", "sheet"];
    assert_eq!(folder.done(&pin), "commands done: 1\n");
    assert_eq!(folder.get("sheet"), PINNED);
    assert_eq!(folder.done(&pin), "commands done: 1\n");
    assert_eq!(folder.get("sheet"), PINNED);
}

#[test]
fn a_pinned_vertex_stays_where_it_is() {
    let folder = Folder::new("pinned");
    folder.put("sheet", PINNED);
    folder.put("slide", b"S\0\0\0\x01\0\x80E");
    folder.put("remove", b"S\x01\x01\0\0\0\x80X\0\0\0\x01\0E");
    for (roll, command, byte) in [("slide", 1, 0), ("remove", 2, 7)] {
        let words = folder.fails(1, &["roll", &example("sample.layer"), "sheet", roll, "-o", "sheet"]);
        let expected = format!(
            "puzhenim: {}: the vertex is pinned, and only tracing anew or reading a sheet without the pin takes a pin away: \
             command {} of the roll, at byte {} (question 16)\nCommands done before it: {}. Nothing is written.\n",
            roll,
            command,
            byte,
            command - 1
        );
        assert_eq!(words, expected);
    }
    // The sheet without the pin.
    folder.put("sheet", SHEET);
    folder.done(&["roll", &example("sample.layer"), "sheet", "slide", "-o", "sheet"]);
    assert_eq!(folder.get("sheet")[11..13], [b'K', 128]);
}

#[test]
fn plans_as_text_and_as_bytes() {
    let folder = Folder::new("plan");
    folder.put("sheet", SHEET);
    let said = folder.done(&["plan", &example("sample.layer"), "sheet", "-o", "list"]);
    let expected = "outlines: 1, bores: 0, each after those around it\n\
                    contour    column     row    square samples    in 1/131072\n\
                    outline         0       1          0.000031              4\n\
                    total                              0.000031              4\n";
    assert_eq!(said, expected);
    let list = "M 0.99609375 1\nl 1 0.99609375\nl 1.00390625 1\nl 1 1.00390625\nZ\n";
    assert_eq!(text(&folder.get("list")), list);
    assert_eq!(folder.done(&["plan", &example("sample.layer"), "sheet", "-o", "-"]), list);
    assert_eq!(folder.done(&["plan", &example("sample.layer"), "sheet", "-o", "items", "--binary", "points"]), said);
    assert_eq!(folder.get("items"), b"MlllZ");
    assert_eq!(folder.done(&["plan", &example("sample.layer"), "sheet", "-o", "-", "--binary", "points"]), "MlllZ");
    assert_eq!(folder.run(&["plan", &example("sample.layer"), "sheet", "-o", "items", "--binary", "-"]).stdout, folder.get("points"));
    let points = folder.get("points");
    assert_eq!((points.len(), &points[..8]), (64, &0.99609375_f64.to_le_bytes()[..]));
    folder.fails(2, &["plan", &example("sample.layer"), "sheet", "-o", "same", "--binary", "same"]);
    folder.fails(1, &["plan", &example("sample.layer"), "sheet", "-o", "list", "--binary", "none/points"]);
}

/// A ring around a sample, and a sample above the ring.
const NESTED: &[u8] = b"P1 7 9 0000000 0100000 0000000 0111110 0100010 0101010 0100010 0111110 0000000";

#[test]
fn plans_and_draws_an_outer_wall_before_what_lies_within() {
    let folder = Folder::new("nested");
    folder.put("nested.pbm", NESTED);
    folder.done(&["slice", "nested.pbm", "-o", "sheet", "--passes", "0", "--tolerance", "0"]);
    let said = folder.done(&["plan", "nested.pbm", "sheet", "-o", "list"]);
    assert!(said.starts_with("outlines: 3, bores: 1, each after those around it\n"));
    let list = text(&folder.get("list"));
    let moves: Vec<&str> = list.lines().filter(|line| line.starts_with('M')).collect();
    assert_eq!(moves, ["M 0.5 1", "M 0.5 7", "M 1.5 2", "M 2.5 3"]);
    folder.done(&["draw", "nested.pbm", "sheet", "-o", "nested.svg"]);
    let picture = text(&folder.get("nested.svg"));
    assert!(picture.contains("3 outlines, 1 bore"));
    let classes: Vec<&str> = picture.lines().filter_map(|line| line.strip_prefix("<path class=\"")?.split('"').next()).collect();
    assert_eq!(classes[..3], ["outline", "bore", "outline"]);
}

/// Squares of side 5, 3, 1 and 1 without their corners, which are half a square together, in the order of the sheet.
const NESTED_AREAS: [[&str; 5]; 4] = [
    ["outline", "0", "1", "24.500000", "3211264"],
    ["bore", "1", "2", "-8.500000", "-1114112"],
    ["outline", "2", "3", "0.500000", "65536"],
    ["outline", "0", "7", "0.500000", "65536"],
];

/// The words of the lines below the head of the areas.
fn area_lines(said: &str) -> Vec<Vec<&str>> {
    let lines = said.lines().skip_while(|line| !line.starts_with("contour  ")).skip(1);
    lines.map(|line| line.split_whitespace().collect()).collect()
}

#[test]
fn areas_come_in_the_order_of_the_sheet_or_of_the_list() {
    let folder = Folder::new("areas");
    folder.put("nested.pbm", NESTED);
    folder.done(&["slice", "nested.pbm", "-o", "sheet", "--passes", "0", "--tolerance", "0"]);
    let total = vec!["total", "17.000000", "2228224"];
    for (words, order) in
        [(&["check", "nested.pbm", "sheet"][..], [0, 1, 2, 3]), (&["plan", "nested.pbm", "sheet", "-o", "list"], [0, 3, 1, 2])]
    {
        let said = folder.done(words);
        let mut expected: Vec<Vec<&str>> = order.iter().map(|place| NESTED_AREAS[*place].to_vec()).collect();
        expected.push(total.clone());
        assert_eq!(area_lines(&said), expected);
    }
    folder.done(&["draw", "nested.pbm", "sheet", "-o", "nested.svg"]);
    let picture = text(&folder.get("nested.svg"));
    assert_eq!(
        legend(&picture)[..3],
        [
            "outline, inside shaded, area 25.500000 (3342336)",
            "bore, area -8.500000 (-1114112)",
            "total 17.000000 square samples (2228224 in 1/131072)"
        ]
    );
}

#[test]
fn a_layer_without_contours_has_no_area() {
    let folder = Folder::new("empty");
    folder.put("empty.pbm", b"P1 3 2 000 000");
    folder.done(&["slice", "empty.pbm", "-o", "sheet"]);
    assert_eq!(area_lines(&folder.done(&["check", "empty.pbm", "sheet"])), [["total", "0.000000", "0"]]);
    assert_eq!(area_lines(&folder.done(&["plan", "empty.pbm", "sheet", "-o", "list"])), [["total", "0.000000", "0"]]);
    folder.done(&["draw", "empty.pbm", "sheet", "-o", "empty.svg"]);
    assert_eq!(legend(&text(&folder.get("empty.svg"))), ["inside sample", "outside sample"]);
}

/// What areas says of the sample's sheet, its last lines as check has them.
const SAMPLE_AREAS: &str = "contours: 1, drawn edges: 4\n\
                            contour    column     row    square samples    in 1/131072\n\
                            outline         0       1          0.000031              4\n\
                            total                              0.000031              4\n";

/// In 1/256 of the pitch the vertices are (255, 256) on stick 2, (257, 256) on 3, (256, 255) on 7 and (256, 257) on 10. Their edges go to 7,
/// 10, 3 and 2, and add 255² - 256², 257² - 256², 256² - 257 × 255 and 256² - 255 × 257.
const SAMPLE_SUMS: &str = "2 0 0 1 -511\n3 0 1 1 2\n7 1 1 0 3\n10 1 1 1 4\n";

#[test]
fn areas_and_sums_by_sticks() {
    let folder = Folder::new("sums");
    let input = example("sample.layer");
    folder.put("sheet", SHEET);
    assert_eq!(folder.done(&["areas", &input, "sheet"]), SAMPLE_AREAS);
    assert!(folder.done(&["check", &input, "sheet"]).ends_with(SAMPLE_AREAS.split_once('\n').unwrap().1));
    assert_eq!(folder.done(&["areas", &input, "sheet", "--sums", "sums"]), SAMPLE_AREAS);
    assert_eq!(text(&folder.get("sums")), SAMPLE_SUMS);
    assert_eq!(folder.done(&["areas", &input, "sheet", "--sums=-"]), SAMPLE_SUMS);
    assert_eq!(folder.done(&["areas", &input, "sheet", "--plot", "plot.svg"]), SAMPLE_AREAS);
    let plot = text(&folder.get("plot.svg"));
    assert_eq!(folder.done(&["areas", &input, "sheet", "--plot", "-"]), plot);
    assert_eq!(folder.done(&["areas", &input, "sheet", "--sums", "again", "--plot", "-"]), plot);
    assert_eq!(folder.done(&["areas", &input, "sheet", "--sums", "-", "--plot", "again.svg"]), SAMPLE_SUMS);
    assert_eq!((folder.get("again"), folder.get("again.svg")), (folder.get("sums"), folder.get("plot.svg")));
    // A pinned vertex is a kept one.
    folder.put("pinned", PINNED);
    assert_eq!(folder.done(&["areas", &input, "pinned", "--sums", "-"]), SAMPLE_SUMS);
}

#[test]
fn refused_areas_write_nothing() {
    let folder = Folder::new("refused-areas");
    let input = example("sample.layer");
    folder.put("sheet", SHEET);
    folder.put("sums", b"old");
    let words = folder.fails(2, &["areas", &input, "sheet", "--sums", "sums", "--plot", "sums"]);
    assert_eq!(words, "puzhenim: areas wants two different files after --sums and --plot\nTry 'puzhenim --help'.\n");
    folder.fails(2, &["areas", &input, "sheet", "--sums", "-", "--plot", "-"]);
    folder.put("removed", &[&SHEET[..11], b"R", &SHEET[12..]].concat());
    let words = folder.fails(1, &["areas", &input, "removed", "--sums", "sums", "--plot", "plot"]);
    assert!(words.starts_with("puzhenim: removed: the layer is not held") && words.contains("(question 7)"));
    folder.fails(1, &["areas", &input, "sheet", "--sums", "sums", "--plot", "none/plot"]);
    folder.fails(1, &["areas", &input, "sheet", "--sums", "none/sums", "--plot", "plot"]);
}

/// The commands of the plot's curve, each a letter and a number but for the first.
fn curve(plot: &str) -> String {
    let path = plot.lines().find_map(|line| line.strip_prefix("<path class=\"line\" d=\"")?.strip_suffix("\"/>"));
    path.unwrap().into()
}

/// The labels of the ticks along the axis of this class, and where they are by this attribute.
fn ticks(plot: &str, class: &str, attribute: &str) -> Vec<(String, f64)> {
    let begin = format!("<text class=\"{}\" ", class);
    let tick = |line: &str| {
        let (attributes, label) = line.strip_prefix(&begin)?.strip_suffix("</text>")?.split_once('>')?;
        let place = attributes.split_once(&format!("{}=\"", attribute))?.1.split('"').next()?;
        Some((label.to_string(), place.parse().ok()?))
    };
    plot.lines().filter_map(tick).collect()
}

#[test]
fn plots_a_sample_by_steps() {
    let folder = Folder::new("plot");
    let input = example("sample.layer");
    folder.done(&["slice", &input, "-o", "sheet", "--passes", "0", "--tolerance", "0"]);
    let plot = folder.done(&["areas", &input, "sheet", "--plot", "-"]);
    // Sticks are 80 pixels apart, and a square sample is 420 pixels. The sums are -0.375, 0.25, 0.375 and 0.5 square samples.
    assert_eq!(curve(&plot), "M0 252H160V409.5H240V147H560V94.5H800V42H960");
    let up: Vec<(String, f64)> = ["-0.4", "-0.2", "0.0", "0.2", "0.4", "0.6"]
        .map(String::from)
        .into_iter()
        .zip((0..6).rev().map(|i| 84.0 * i as f64 + 4.5))
        .collect();
    assert_eq!(ticks(&plot, "up", "y"), up);
    let across: Vec<(String, f64)> = (0..=6).map(|i| ((2 * i).to_string(), 160.0 * i as f64)).collect();
    assert_eq!(ticks(&plot, "across", "x"), across);
    assert!(
        plot.contains("<path class=\"total\" d=\"M0 42h960\"/>")
            && plot.contains(">stick number<")
            && plot.contains(">area in square samples<")
    );
    assert!(plot.contains("<path class=\"dot\" stroke-width=\"5\" d=\"M160 409.5h0M240 147h0M560 94.5h0M800 42h0\"/>"));
    assert!(plot.contains("3 × 3 samples; 1 contour, 4 drawn edges</text>"));
    let expected = [
        "sum after the drawn edge that starts from the stick",
        "total 0.500000 square samples (65536 in 1/131072)",
        "highest sum 0.500000 (65536) after stick 10",
        "lowest sum -0.375000 (-49152) after stick 2",
    ];
    assert!(legend(&plot).ends_with(&expected), "{:?}", legend(&plot));
}

#[test]
fn plots_a_layer_without_contours() {
    let folder = Folder::new("flat");
    folder.put("empty.pbm", b"P1 3 2 000 000");
    folder.done(&["slice", "empty.pbm", "-o", "sheet"]);
    let said = folder.done(&["areas", "empty.pbm", "sheet", "--sums", "sums", "--plot", "plot"]);
    assert!(said.starts_with("contours: 0, drawn edges: 0\n"));
    assert_eq!((area_lines(&said), folder.get("sums")), (vec![vec!["total", "0.000000", "0"]], vec![]));
    let plot = text(&folder.get("plot"));
    assert_eq!(curve(&plot), "M0 420H960");
    assert!(plot.contains("0 contours, 0 drawn edges") && !plot.contains("after stick") && !plot.contains("NaN") && !plot.contains("inf"));
}

#[test]
fn a_plot_of_many_edges_is_small_and_hides_none() {
    let folder = Folder::new("many");
    let rows: Vec<u8> = (0..1022_usize).flat_map(|row| [if row % 2 == 1 { 0x55 } else { 0xAA }; 128]).collect();
    folder.put("many.pbm", &[b"P4 1022 1022 ", &rows[..]].concat());
    folder.done(&["slice", "many.pbm", "--pad", "-o", "sheet", "--passes", "0", "--tolerance", "0"]);
    folder.done(&["areas", "many.pbm", "--pad", "sheet", "--sums", "sums", "--plot", "plot"]);
    let sums = text(&folder.get("sums"));
    let numbers: Vec<i64> = sums.lines().map(|line| line.rsplit(' ').next().unwrap().parse().unwrap()).collect();
    let plot = text(&folder.get("plot"));
    assert!(numbers.len() > 2_000_000 && plot.len() < 200_000, "{} {}", numbers.len(), plot.len());
    // Where the highest and the lowest sum are by the outermost ticks is where the curve comes.
    let up = ticks(&plot, "up", "y");
    let value = |label: &str| label.replace(',', "").parse::<f64>().unwrap();
    let (low, high) = (value(&up[0].0), value(&up[up.len() - 1].0));
    let place = |number: i64| 420.0 * (high - number as f64 / 131_072.0) / (high - low);
    let curve = curve(&plot);
    let heights: Vec<f64> = curve.split('V').skip(1).map(|rest| rest.split('H').next().unwrap().parse().unwrap()).collect();
    let (top, bottom) = heights.iter().fold((420.0_f64, 0.0_f64), |(top, bottom), height| (top.min(*height), bottom.max(*height)));
    assert!((top - place(*numbers.iter().max().unwrap())).abs() < 0.001);
    assert!((bottom - place(numbers.iter().min().unwrap().min(&0).to_owned())).abs() < 0.001);
    assert!(heights.len() > 1000 && curve.matches('H').count() <= 1921);
    assert!(plot.contains("1092 numbers a column, from the lowest to the highest of their sums"));
}

#[test]
fn the_largest_area_stays_in_its_column() {
    let folder = Folder::new("largest");
    folder.put("full.pbm", &[&b"P4 1022 1022 "[..], &[0xFF; 1022 * 128]].concat());
    folder.done(&["slice", "full.pbm", "--pad", "-o", "sheet", "--passes", "0", "--tolerance", "0"]);
    let said = folder.done(&["check", "full.pbm", "--pad", "sheet"]);
    // A square of side 1,022 without its corners.
    let line = "outline         0       1    1044483.500000   136902541312";
    assert!(said.lines().any(|said| said == line), "{}", said);
}

#[test]
fn checks_a_sheet() {
    let folder = Folder::new("check");
    folder.put("sheet", SHEET);
    let report = folder.done(&["check", &example("sample.layer"), "sheet"]);
    let figures: Vec<&str> = report.lines().skip(1).collect();
    let expected = [
        "inside samples          1",
        "sticks                  4",
        "contours                1",
        "kept vertices           4",
        "removed vertices        0",
        "",
        "contour    column     row    square samples    in 1/131072",
        "outline         0       1          0.000031              4",
        "total                              0.000031              4",
    ];
    assert_eq!(figures, expected);
    folder.put("pinned", PINNED);
    let report = folder.done(&["check", &example("sample.layer"), "pinned"]);
    let vertices: Vec<&str> = report.lines().skip(4).take(3).collect();
    assert_eq!(vertices, ["kept vertices           4", "of these pinned         1", "removed vertices        0"]);
    assert_eq!(area_lines(&report), [vec!["outline", "0", "1", "0.000031", "4"], vec!["total", "0.000031", "4"]]);
    folder.put("removed", &[&SHEET[..11], b"R", &SHEET[12..]].concat());
    let words = folder.fails(1, &["check", &example("sample.layer"), "removed"]);
    let expected = "puzhenim: removed: the layer is not held: contour that starts at stick 2 (question 7)\n\
                    That stick is at column 0, row 1 from below.\n";
    assert_eq!(words, expected);
    let words = folder.fails(1, &["check", &example("passages.layer"), "sheet"]);
    assert!(words.contains("command at byte 0 (question 8)"));
}

#[test]
fn draws_outlines_and_bores() {
    let folder = Folder::new("draw");
    folder.done(&["draw", &example("passages.layer"), "-o", "traced.svg"]);
    let picture = text(&folder.get("traced.svg"));
    assert!(picture.contains("24 × 16 samples, 220 inside; 1 outline, 2 bores; vertices: 130 kept, 0 removed"));
    assert!(picture.contains("inside sample") && !picture.contains("removed vertex"));
    // A rectangle of 22 by 14 without its corners; the bores have 308 - 220 samples, and lose their corners too.
    assert_eq!(
        legend(&picture)[..3],
        [
            "outline, inside shaded, area 307.500000 (40304640)",
            "bore, area -87.000000 (-11403264)",
            "total 220.500000 square samples (28901376 in 1/131072)"
        ]
    );
    folder.done(&["slice", &example("passages.layer"), "-o", "sheet"]);
    folder.done(&["draw", &example("passages.layer"), "sheet", "-o", "sliced.svg"]);
    assert!(text(&folder.get("sliced.svg")).contains("removed vertex"));
}

/// The points at which a picture has marks of this class within the grid, in 1/256 of the pitch.
fn marks(picture: &str, class: &str) -> Vec<String> {
    let begin = format!("<path class=\"dot {}\" ", class);
    let path = picture.lines().find_map(|line| line.strip_prefix(&begin)?.split("d=\"").nth(1)?.split('"').next());
    let marks = path.unwrap_or("").split('M').skip(1);
    marks.map(|mark| format!("M{}", mark.split('h').next().unwrap_or(""))).collect()
}

/// The texts of a picture's legend.
fn legend(picture: &str) -> Vec<&str> {
    let shown = picture.lines().filter(|line| line.contains("</text>")).skip(2);
    shown.filter_map(|line| line.strip_suffix("</text>")?.rsplit('>').next()).collect()
}

#[test]
fn draws_pinned_vertices_by_a_mark_of_their_own() {
    let folder = Folder::new("pins");
    let drawn = |sheet: &[u8]| {
        folder.put("sheet", sheet);
        folder.done(&["draw", &example("sample.layer"), "sheet", "-o", "picture"]);
        text(&folder.get("picture"))
    };
    let picture = drawn(PINNED);
    assert_eq!(marks(&picture, "pinned"), ["M255 256"]);
    assert_eq!(marks(&picture, "kept-outline").len(), 4);
    assert!(picture.contains("vertices: 4 kept (1 pinned), 0 removed</text>"));
    assert!(picture.contains("\n.pinned{"));
    // A square has a stroke with a direction.
    assert!(picture.contains("M255 256h.1\"") && !picture.contains("M255 256h0\""));
    let contours = ["outline, inside shaded, area 0.000031 (4)", "total 0.000031 square samples (4 in 1/131072)"];
    let all = [&contours[..], &["inside sample", "outside sample", "kept vertex", "pinned vertex"]].concat();
    assert_eq!(legend(&picture), all);
    // With all of them pinned, no mark of a kept vertex is to be seen.
    let picture = drawn(b"L\x03\0\x03\0C\0\0\0\x01\0N\xFFN\xFFN\x01N\x01E");
    assert_eq!(marks(&picture, "pinned"), ["M255 256", "M257 256", "M256 255", "M256 257"]);
    assert!(picture.contains("vertices: 4 kept (4 pinned), 0 removed</text>"));
    assert_eq!(legend(&picture), [&all[..4], &all[5..]].concat());
    let picture = drawn(SHEET);
    assert!(!picture.contains("pinned"));
    assert_eq!(legend(&picture), all[..5]);
}

#[test]
fn draws_the_picture_of_the_documents() {
    let folder = Folder::new("documents");
    folder.done(&["slice", &example("block.pbm"), "-o", "block.sheet"]);
    folder.done(&["draw", &example("block.pbm"), "block.sheet", "-o", "block.svg"]);
    let documents = fs::read(Path::new(EXAMPLES).join("../docs/block.svg")).unwrap();
    assert!(folder.get("block.svg") == documents, "docs/block.svg is another picture");
}

#[test]
fn a_fine_grid_is_drawn_without_marks() {
    let folder = Folder::new("fine");
    let rows: Vec<u8> = (0..1024).flat_map(|row| [if row % 2 == 1 { 0x55 } else { 0 }; 128]).collect();
    folder.put("fine.pbm", &[b"P4 1024 1024 ", &rows[..]].concat());
    let words = folder.fails(1, &["draw", "fine.pbm", "-o", "fine.svg"]);
    assert!(words.contains("(question 4)"));
    let rows: Vec<u8> = (0..1022).flat_map(|row| [if row % 8 == 1 { 0x55 } else { 0 }; 128]).collect();
    folder.put("fine.pbm", &[b"P4 1022 1022 ", &rows[..]].concat());
    folder.done(&["draw", "fine.pbm", "--pad", "-o", "fine.svg"]);
    let picture = text(&folder.get("fine.svg"));
    assert!(!picture.contains("class=\"dot") && picture.len() < 4_000_000);
    folder.done(&["slice", "fine.pbm", "--pad", "-o", "sheet", "--passes", "0", "--tolerance", "0"]);
    let mut pinned = folder.get("sheet");
    pinned[11] = b'N';
    folder.put("pinned", &pinned);
    folder.done(&["draw", "fine.pbm", "pinned", "--pad", "-o", "pinned.svg"]);
    let picture = text(&folder.get("pinned.svg"));
    assert!(!picture.contains("class=\"dot") && !picture.contains("pinned vertex") && picture.contains(" (1 pinned), "));
}

#[test]
fn help_and_version() {
    let folder = Folder::new("help");
    let all = folder.done(&["--help"]);
    for command in ["slice", "roll", "plan", "check", "areas", "draw"] {
        assert!(all.contains(&format!("puzhenim {} IN", command)));
        let help = folder.done(&[command, "--help"]);
        assert!(help.starts_with(&format!("puzhenim {} IN", command)));
        assert_eq!(folder.done(&["help", command]), help);
    }
    assert!(all.contains("(1 to 16)"));
    assert!(folder.done(&["roll", "--help"]).contains("P and a stick pin one"));
    assert!(folder.done(&["check", "--help"]).contains("in 1/131072 of a square sample"));
    assert!(folder.done(&["areas", "--help"]).contains("the sum in 1/131072 of a square sample"));
    assert_eq!(folder.done(&["--version"]), format!("puzhenim {}\n", env!("CARGO_PKG_VERSION")));
}

#[test]
fn a_wrong_command_line_ends_with_2() {
    let folder = Folder::new("usage");
    let input = example("sample.layer");
    let wrong: [(&[&str], &str); 12] = [
        (&[], "no command is given"),
        (&["cut"], "there is no command cut"),
        (&["slice"], "slice wants IN"),
        (&["slice", &input], "slice wants -o"),
        (&["slice", &input, "-o"], "slice wants a value after -o"),
        (&["slice", &input, "-o", "a", "-o", "b"], "slice has -o twice"),
        (&["slice", &input, "more", "-o", "a"], "slice takes no further operand: more"),
        (&["slice", &input, "-o", "a", "--passes", "65536"], "slice wants a number of 0 to 65535 after --passes"),
        (&["slice", &input, "-o", "a", "--tolerance", "-1"], "slice wants a number of 0 to 255 after --tolerance"),
        (&["check", &input, "a", "--tolerance", "1"], "check has no option --tolerance"),
        (&["check", &input, "a", "--pad=1"], "check takes no value with --pad"),
        (&["check", "-", "-"], "check reads standard input once only"),
    ];
    for (words, expected) in wrong {
        assert_eq!(folder.fails(2, words), format!("puzhenim: {}\nTry 'puzhenim --help'.\n", expected));
    }
}

#[test]
fn files_that_cannot_be_read_or_written() {
    let folder = Folder::new("files");
    assert!(folder.fails(1, &["slice", "none", "-o", "sheet"]).starts_with("puzhenim: none: "));
    assert!(folder.fails(1, &["slice", &example("sample.layer"), "-o", "none/sheet"]).starts_with("puzhenim: none/sheet: "));
    assert_eq!(folder.fails(1, &["slice", &example("sample.layer"), "-o", "."]), "puzhenim: .: is a folder\n");
}

#[test]
fn where_nothing_can_be_written_the_status_tells() {
    let full = || fs::OpenOptions::new().write(true).open("/dev/full").unwrap();
    let run = |word: &str| {
        let mut command = Command::new(env!("CARGO_BIN_EXE_puzhenim"));
        command.arg(word);
        command
    };
    assert_eq!(run("cut").stderr(full()).status().unwrap().code(), Some(2));
    let output = run("--version").stdout(full()).output().unwrap();
    assert_eq!(output.status.code(), Some(1));
    assert!(text(&output.stderr).starts_with("puzhenim: standard output: "));
}
