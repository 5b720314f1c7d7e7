//! `grain denoise`: the library's denoised planes, read back by another reader of the format.

mod common;

use common::{Planes, clip, command, folder, header, said, sample, shapes, written};
use grain::{Format, Shape};
use std::fs;

/// 8 and 10 bits of what the crate y4m reads.
#[test]
fn another_reader_finds_the_denoised_planes() {
    let folder = folder("denoise");
    for shape in shapes(33, 17) {
        let frames: Vec<Planes> = (5..8).map(|seed| Planes::random(shape, seed)).collect();
        fs::write(folder.join("in.y4m"), clip(&frames)).unwrap();
        let words = ["denoise", "in.y4m", "out.y4m", "--force"];
        assert_eq!(written(&folder, &words), b"");
        let denoised: Vec<Planes> = frames.iter().map(Planes::denoised).collect();
        let bytes = fs::read(folder.join("out.y4m")).unwrap();
        assert_eq!(
            bytes,
            clip(&denoised),
            "{shape:?}: the header kept, the planes denoised"
        );
        assert_eq!(
            written(&folder, &["denoise", "in.y4m", "-"]),
            bytes,
            "standard output"
        );
        if shape.format == Format::Monochrome && shape.depth > 8 {
            continue; // which the crate y4m doesn't read
        }
        let mut read = y4m::decode(&bytes[..]).unwrap();
        assert_eq!(
            (read.get_width(), read.get_height(), read.get_bit_depth()),
            (33, 17, shape.depth.into())
        );
        for frame in &denoised {
            let found = read.read_frame().unwrap();
            let planes = [
                found.get_y_plane(),
                found.get_u_plane(),
                found.get_v_plane(),
            ]
            .concat();
            assert_eq!(planes, frame.bytes());
        }
        assert!(matches!(read.read_frame(), Err(y4m::Error::EOF)));
    }
}

#[test]
fn a_frame_s_own_words_are_kept() {
    let folder = folder("words");
    let shape = Shape::new(2, 1, 8, Format::Monochrome);
    let head = header(shape) + "\nFRAME Ixyz\n";
    fs::write(folder.join("in.y4m"), [head.as_bytes(), &[0, 16]].concat()).unwrap();
    written(&folder, &["denoise", "in.y4m", "out.y4m"]);
    assert_eq!(
        fs::read(folder.join("out.y4m")).unwrap(),
        [head.as_bytes(), &[4, 12]].concat()
    );
}

#[test]
fn a_pipe_of_two() {
    let (folder, _) = sample();
    let first = command(folder, &["denoise", "grain.y4m", "-"])
        .output()
        .unwrap();
    written(folder, &["denoise", "grain.y4m", "once.y4m"]);
    assert_eq!(first.stdout, fs::read(folder.join("once.y4m")).unwrap());
}

#[test]
fn nothing_half_written_is_left() {
    let (samples, _) = sample();
    let folder = folder("half");
    let bytes = fs::read(samples.join("grain.y4m")).unwrap();
    fs::write(folder.join("cut.y4m"), &bytes[..bytes.len() - 1]).unwrap();
    fs::write(folder.join("out.y4m"), "before").unwrap();
    let words = said(&folder, &["denoise", "cut.y4m", "out.y4m", "--force"]);
    assert!(
        words.contains(
            "out.y4m isn't written: cut.y4m: cut off: frame 5 has 230399 of its 230400 bytes"
        ),
        "{words}"
    );
    assert_eq!(fs::read(folder.join("out.y4m")).unwrap(), b"before");
    assert_eq!(fs::read_dir(&folder).unwrap().count(), 2);
    let words = said(&folder, &["denoise", "cut.y4m", "-"]);
    assert!(words.contains("standard output has only"), "{words}");
    let words = ["denoise", "cut.y4m", "out.y4m", "--frames", "5", "--force"];
    written(&folder, &words);
    assert_eq!(
        fs::metadata(folder.join("out.y4m")).unwrap().len() as usize,
        bytes.len() - 6 - 230400
    );
}
