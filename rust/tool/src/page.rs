//! Sizes of pages.

/// A page: its size in the picture's units, 96 to the inch, and as it is shown.
#[derive(Clone, Debug, PartialEq)]
pub struct Page {
    pub width: f64,
    pub height: f64,
    pub shown: (f64, f64),
    pub unit: &'static str,
}

const LEAST: (f64, f64) = (400.0, 300.0);
const MOST: f64 = 100_000.0;

impl Page {
    fn units(width: f64, height: f64) -> Page {
        Page { width, height, shown: (width, height), unit: "" }
    }

    fn millimetres(width: f64, height: f64) -> Page {
        let units = |mm: f64| (mm * 9600.0 / 25.4).round() / 100.0;
        Page { width: units(width), height: units(height), shown: (width, height), unit: "mm" }
    }

    /// The page that a word names: A4 or A3 lying, or a size.
    pub fn named(word: &str) -> Result<Page, String> {
        match word {
            "A4" => return Ok(Page::millimetres(297.0, 210.0)),
            "A3" => return Ok(Page::millimetres(420.0, 297.0)),
            _ => {}
        }
        let size = word.split_once('x').and_then(|(w, h)| Some((w.parse::<u32>().ok()?, h.parse::<u32>().ok()?)));
        let Some((width, height)) = size.map(|(w, h)| (f64::from(w), f64::from(h))) else {
            return Err(format!("'{word}' is not a page: A4, A3 or a size like 800x600"));
        };
        if width < LEAST.0 || height < LEAST.1 || width.max(height) > MOST {
            return Err(format!("'{word}' is not a page between {}x{} and {MOST}x{MOST}", LEAST.0, LEAST.1));
        }
        Ok(Page::units(width, height))
    }
}

impl Default for Page {
    fn default() -> Page {
        Page::units(800.0, 600.0)
    }
}

#[cfg(test)]
mod tests {
    use super::*;

    #[test]
    fn pages_have_names_and_sizes() {
        assert_eq!(Page::named("800x600").unwrap(), Page::default());
        assert_eq!(Page::named("A4").unwrap().width, 1122.52);
        for wrong in ["A5", "800", "x", "10x10", "800x", "100001x400", "-800x600"] {
            assert!(Page::named(wrong).is_err(), "{wrong}");
        }
    }
}
