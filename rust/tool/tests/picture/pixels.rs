//! A picture as rsvg-convert draws it, and the parts that its markup has.
#![allow(dead_code)]

use std::fs;
use std::path::Path;
use std::process::Command;

/// A part of a strip: its title, and the place of what is drawn first for it.
pub struct Drawn {
    pub title: String,
    x: f64,
    y: f64,
    wide: f64,
    high: f64,
}

pub struct Pixels {
    wide: usize,
    high: usize,
    bytes: Vec<u8>,
}

/// Whether rsvg-convert and pngtopnm are here. In the gate they have to be.
pub fn can_draw() -> bool {
    let found = Command::new("sh")
        .arg("-c")
        .arg("command -v rsvg-convert && command -v pngtopnm")
        .output();
    let there = found.map_or(false, |output| output.status.success());
    if !there {
        assert!(std::env::var_os("ANHKHOVET_PICTURES").is_none());
        println!("NOT RUN: a picture's pixels, since rsvg-convert and pngtopnm are not here");
    }
    there
}

fn attribute(element: &str, name: &str) -> f64 {
    let start = format!(" {name}=\"");
    let value = element
        .split(&start)
        .nth(1)
        .and_then(|rest| rest.split('"').next());
    value
        .and_then(|value| value.parse().ok())
        .expect("a length")
}

/// The parts of a picture's markup, in its order.
pub fn parts(markup: &str) -> Vec<Drawn> {
    let parts = markup.split("<g class=\"part\"><title>").skip(1);
    let drawn = |part: &str| {
        let (title, rest) = part.split_once("</title>").expect("a title");
        let element = rest.split("/>").next().expect("an element");
        Drawn {
            title: title.to_string(),
            x: attribute(element, "x"),
            y: attribute(element, "y"),
            wide: attribute(element, "width"),
            high: attribute(element, "height"),
        }
    };
    parts.map(drawn).collect()
}

pub fn part<'a>(parts: &'a [Drawn], title: &str) -> &'a Drawn {
    let mut found = parts.iter().filter(|part| part.title.starts_with(title));
    found.next().unwrap_or_else(|| panic!("no part {title}"))
}

pub fn is_red([red, green, blue]: [u8; 3]) -> bool {
    red > 140 && green < 90 && blue < 90
}

/// How light a pixel is in print without colour.
pub fn light([red, green, blue]: [u8; 3]) -> f64 {
    0.299 * f64::from(red) + 0.587 * f64::from(green) + 0.114 * f64::from(blue)
}

impl Pixels {
    /// One pixel for each unit of the picture.
    pub fn of(folder: &Path, picture: &str) -> Pixels {
        let drawn = Command::new("sh")
            .arg("-c")
            .arg(format!(
                "rsvg-convert {picture} -o {picture}.png && pngtopnm {picture}.png >{picture}.ppm"
            ))
            .current_dir(folder)
            .output()
            .expect("a shell");
        let told = String::from_utf8_lossy(&drawn.stderr).into_owned();
        assert!(drawn.status.success(), "{told}");
        let bytes = fs::read(folder.join(format!("{picture}.ppm"))).expect("pixels");
        // P6, width, height, the greatest number, then three bytes a pixel.
        let mut words = bytes.split(|byte| byte.is_ascii_whitespace());
        let head: Vec<&[u8]> = words.by_ref().take(4).collect();
        let number = |word: &[u8]| {
            String::from_utf8_lossy(word)
                .parse::<usize>()
                .expect("a number")
        };
        assert_eq!((head[0], number(head[3])), (&b"P6"[..], 255));
        let before: usize = head.iter().map(|word| word.len() + 1).sum();
        Pixels {
            wide: number(head[1]),
            high: number(head[2]),
            bytes: bytes[before..].to_vec(),
        }
    }

    fn at(&self, x: usize, y: usize) -> [u8; 3] {
        let at = 3 * (y * self.wide + x);
        [self.bytes[at], self.bytes[at + 1], self.bytes[at + 2]]
    }

    /// The pixels of a part, without those at its edges.
    pub fn within(&self, part: &Drawn) -> Vec<[u8; 3]> {
        let (left, right) = ((part.x + 1.5) as usize, (part.x + part.wide - 1.5) as usize);
        let (top, bottom) = ((part.y + 1.5) as usize, (part.y + part.high - 1.5) as usize);
        let rows = (top..bottom).flat_map(|y| (left..right).map(move |x| (x, y)));
        rows.map(|(x, y)| self.at(x, y)).collect()
    }

    /// Where pixels are that something holds of.
    pub fn places(&self, holds: impl Fn([u8; 3]) -> bool) -> Vec<(f64, f64)> {
        let all = (0..self.high).flat_map(|y| (0..self.wide).map(move |x| (x, y)));
        let found = all.filter(|(x, y)| holds(self.at(*x, *y)));
        found.map(|(x, y)| (x as f64, y as f64)).collect()
    }

    /// How light a part is, and how much that differs from pixel to pixel.
    pub fn lights(&self, part: &Drawn) -> (f64, f64) {
        let lights: Vec<f64> = self.within(part).into_iter().map(light).collect();
        let mean = lights.iter().sum::<f64>() / lights.len() as f64;
        let square = |light: &f64| (light - mean) * (light - mean);
        let squares = lights.iter().map(square).sum::<f64>();
        (mean, (squares / lights.len() as f64).sqrt())
    }
}

impl Drawn {
    /// Whether a place is in it or, by a pixel or two, beside it.
    pub fn holds(&self, (x, y): (f64, f64)) -> bool {
        let near = |at: f64, first: f64, long: f64| at >= first - 2.0 && at <= first + long + 2.0;
        near(x, self.x, self.wide) && near(y, self.y, self.high)
    }

    pub fn above(&self, (_, y): (f64, f64)) -> bool {
        y < self.y
    }

    /// Below its strip and the numbers there.
    pub fn far_below(&self, (_, y): (f64, f64)) -> bool {
        y > self.y + self.high + 20.0
    }
}
