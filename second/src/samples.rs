//! The texts that the papers print as samples: as they print them, copying faults included, and as
//! they were before. `docs/SAMPLES.md` says of each what is wrong with it.

/// A text and what line mode answers to it.
pub struct Text {
    pub text: &'static str,
    pub answer: &'static str,
}

pub struct Sample {
    /// The paper, and where it prints more than one the clause or the place.
    pub name: &'static str,
    pub printed: Text,
    /// With its copying faults taken out, if it has some. Its CRC is the printed one and comes out.
    pub restored: Option<Text>,
    /// CRC_32 as the paper prints it, in a decoding or at the end of the text; none where the text
    /// is no section.
    pub crc_32: Option<u32>,
}

impl Sample {
    /// The text with a right CRC: the restored one, or the printed one where nothing is wrong with it.
    pub fn whole(&self) -> Option<&'static str> {
        let best = self.restored.as_ref().unwrap_or(&self.printed);
        self.crc_32.map(|_| best.text)
    }
}

pub const TEXT_OF_004: &str =
    "/DA0AAAAAAAAAAAABQb+ADAQ6QAeAhxDVUVJQAAAO3/PAAEUrEoICAAAAAAg+2UBNAAANvrtoQ==";

pub const FIRST_TEXT_OF_003: &str = "/DAhAAAAAAAAAP/wEAUAAAHAf9/fgAg9YDAAAAAAAA25aoh";
pub const RESTORED_TEXT_OF_003: &str = "/DAhAAAAAAAAAP/wEAUAAAHAf+9/fgAg9YDAAAAAAAA25aoh";
pub const SECOND_TEXT_OF_003: &str =
    "QW5vdGhlciB0ZXN0IHN0cmluZyBmb3IgZW5jb2RpbmcgdG8gQmFzZTY0IGVuY29kZWQgYmluYXJ5Lg==";

/// The text that 000 and 001 print, each with faults of its own.
const RESTORED_TEXT_OF_000: &str = "/DAgAAAAAAAAAP/wDwUAAAL4f//+ABoXsMAAAAAAAPF20V0=";

const fn text(text: &'static str, answer: &'static str) -> Text {
    Text { text, answer }
}

/// Every text, in the order of the papers.
pub const PUBLISHED: [Sample; 13] = [
    Sample {
        name: "000",
        printed: text("/DAgAAAAAAAAAAP/wDwUAAAL4f//+ABoXsMAAAAAAAAAAPF20V0=", "R 4"),
        restored: Some(text(RESTORED_TEXT_OF_000, "A 19000")),
        crc_32: Some(0xF176_D15D),
    },
    Sample {
        name: "001",
        printed: text("/DAgAAAAAAAAAAP/wDwUAAAL4f//+ABoXsMAAAAAAAPF20V0=", "R 12"),
        restored: Some(text(RESTORED_TEXT_OF_000, "A 19000")),
        crc_32: Some(0xF176_D15D),
    },
    Sample {
        name: "002, 14.1",
        printed: text(
            "/DA0AAAAAAAA///wBQb+cr0AUAAeAhxDVUVJSAAAjn/PAAGImbAICAAAAAAsoKGKNAIAmsnRfg==",
            "R 5",
        ),
        restored: Some(text(
            "/DA0AAAAAAAA///wBQb+cr0AUAAeAhxDVUVJSAAAjn/PAAGlmbAICAAAAAAsoKGKNAIAmsnRfg==",
            "A 307000",
        )),
        crc_32: Some(0x9AC9_D17E),
    },
    Sample {
        name: "002, 14.2",
        printed: text(
            "/DAvAAAAAAAA///wFAVIAACPf+/+c2nALv4AUsz1AAAAAAAAAAAAADVUVJAAABNWLbowo=",
            "R 12",
        ),
        restored: Some(text(
            "/DAvAAAAAAAA///wFAVIAACPf+/+c2nALv4AUsz1AAAAAAAKAAhDVUVJAAABNWLbowo=",
            "A 60293",
        )),
        crc_32: Some(0x62DB_A30A),
    },
    Sample {
        name: "002, 14.3",
        printed: text(
            "/DAvAAAAAAAA///wBQb+dGKQoAAZAhdDVUVJSAAAjn+fCAgAAAAALKChijUCAKnMZ1g=",
            "N",
        ),
        restored: None,
        crc_32: Some(0xA9CC_6758),
    },
    Sample {
        name: "002, 14.4",
        printed: text(
            "/DBIAAAAAAAA///wBQb+ek2ltgAyAhdDVUVJSAAAGH+fCAgAAAAALMvDRBEAAAIXQ1VFSUgAABI/nwgIAAAAACyk26AQAACZcuND",
            "R 5",
        ),
        restored: Some(text(
            "/DBIAAAAAAAA///wBQb+ek2ItgAyAhdDVUVJSAAAGH+fCAgAAAAALMvDRBEAAAIXQ1VFSUgAABl/nwgIAAAAACyk26AQAACZcuND",
            "N",
        )),
        crc_32: Some(0x9972_E343),
    },
    Sample {
        name: "002, 14.5",
        printed: text(
            "/DAvAAAAAAAA///wBQb+rr//ZAAZAhdDVUVJSAAACH+fCAgAAAAALKVs9RcAAJUdsKg=",
            "N",
        ),
        restored: None,
        crc_32: Some(0x951D_B0A8),
    },
    Sample {
        name: "002, 14.6",
        printed: text(
            "/DBIAAAAAAAA///wBQb+ky44CwAyAhdDVUVJSAAACn+fCAgAAAAALKCh4xgAAAIXQ1VFSUgAAAI/nwgIAAAAACygoYoRAAC0IX6w",
            "R 5",
        ),
        restored: Some(text(
            "/DBIAAAAAAAA///wBQb+ky44CwAyAhdDVUVJSAAACn+fCAgAAAAALKCh4xgAAAIXQ1VFSUgAAAl/nwgIAAAAACygoYoRAAC0IX6w",
            "N",
        )),
        crc_32: Some(0xB421_7EB0),
    },
    Sample {
        name: "002, 14.7",
        printed: text(
            "/DAvAAAAAAAA///wBQb+rvF8TAAZAhdDVUVJSAAAB3+fCAgAAAAALKVslxEAAMSHai4=",
            "N",
        ),
        restored: None,
        crc_32: Some(0xC487_6A2E),
    },
    Sample {
        name: "002, 14.8",
        printed: text(
            "/DBhAAAAAAAA///wBQb+qM1E7QBLAhdDVUVJSAAArX+fCAgAAAAALLLXnTUCAAIXQ1VFSUgAACZ/nwgIAAAAAACyy150RAAACF0NVRUIIAAAnf58 ICAAAAAAsstezEAAAihiGnw==",
            "R 12",
        ),
        restored: Some(text(
            "/DBhAAAAAAAA///wBQb+qM1E7QBLAhdDVUVJSAAArX+fCAgAAAAALLLXnTUCAAIXQ1VFSUgAACZ/nwgIAAAAACyy150RAAACF0NVRUlIAAAnf58ICAAAAAAsstezEAAAihiGnw==",
            "N",
        )),
        crc_32: Some(0x8A18_869F),
    },
    Sample {
        name: "003, first",
        printed: text(FIRST_TEXT_OF_003, "R 12"),
        restored: Some(text(RESTORED_TEXT_OF_003, "A 24000")),
        crc_32: Some(0x36E5_AA21),
    },
    Sample {
        name: "003, second",
        printed: text(SECOND_TEXT_OF_003, "R 2"),
        restored: None,
        crc_32: None,
    },
    Sample {
        name: "004",
        printed: text(TEXT_OF_004, "A 201467"),
        restored: None,
        crc_32: Some(0x36FA_EDA1),
    },
];

/// The sample of this name.
pub fn named(name: &str) -> &'static Sample {
    let found = PUBLISHED.iter().find(|sample| sample.name == name);
    found.unwrap_or_else(|| panic!("no paper prints this sample: {name}"))
}

/// The text of this sample that has a right CRC.
pub fn whole(name: &str) -> &'static str {
    let whole = named(name).whole();
    whole.unwrap_or_else(|| panic!("this sample is no section: {name}"))
}
