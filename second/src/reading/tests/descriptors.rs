//! Known descriptors, counted and by number, and the lists of DTMF and audio descriptors.

use super::*;

const SEGMENT: &str = "00000001 7F BF 00 00 10 01 01";

#[test]
fn no_descriptors() {
    let section = with_command("00", "");
    assert_eq!(flat(descriptor_count(&section)), Ok(vec![0]));
    no_list(|n| descriptor(&section, n));
    no_list(|n| dtmf_char(&section, n, 0));
    no_list(|n| segmentation_component(&section, n, 0));
    no_list(|n| audio_component(&section, n, 0));
    no_list(|n| upid(&section, n));
}

#[test]
fn each_known_descriptor() {
    let section = with_known(&[
        (4, "2F AA656E67 FF BB000001 00"),
        (3, "FFFFFFFFFFFF 00000001 8000"),
        (2, "00000007 FF"),
        (2, SEGMENT),
        (1, "28 5F 3132"),
        (0, "FFFFFFFE"),
    ]);
    assert_eq!(descriptor_count(&section), Ok(6));
    let expected: [&[u64]; 6] = [
        &[5, 2],
        &[4, (1 << 48) - 1, 1, 0x8000],
        &[3, 7],
        &[2, 1, 0, 0, 0, 0, 0, 0x10, 1, 1, 0],
        &[1, 0x28, 2],
        &[0, 0xFFFF_FFFE],
    ];
    lists(|n| descriptor(&section, n), &expected);
    let time = Descriptor::Time {
        tai_seconds: (1 << 48) - 1,
        tai_ns: 1,
        utc_offset: 0x8000,
    };
    assert_eq!(
        descriptor(&section, 0),
        Ok(Descriptor::Audio { audio_count: 2 })
    );
    assert_eq!(descriptor(&section, 1), Ok(time));
    let dtmf = Descriptor::Dtmf {
        preroll: 0x28,
        dtmf_count: 2,
    };
    assert_eq!(descriptor(&section, 4), Ok(dtmf));
    let avail = Descriptor::Avail {
        provider_avail_id: 0xFFFF_FFFE,
    };
    assert_eq!(descriptor(&section, 5), Ok(avail));
}

#[test]
fn unknown_descriptors_are_not_counted() {
    let cuei = "43554549";
    let section = with_both(
        "00",
        "",
        &[
            (0, "43554548", "00000001"),
            (0, cuei, "00000002"),
            (5, cuei, "00000003"),
            (2, "00000000", ""),
            (255, cuei, ""),
            (1, cuei, "00 20 31"),
            (4, "43554500", "1F AA656E67 FF"),
        ],
    );
    assert_eq!(descriptor_count(&section), Ok(2));
    lists(|n| descriptor(&section, n), &[&[0, 2], &[1, 0, 1]]);
    no_list(|m| dtmf_char(&section, 0, m));
    lists(|m| dtmf_char(&section, 1, m), &[&[0x31]]);
    no_list(|m| dtmf_char(&section, 2, m));
}

#[test]
fn only_unknown_descriptors() {
    let section = with_both(
        "00",
        "",
        &[(0, "43554548", "00000001"), (5, "43554549", "")],
    );
    assert_eq!(descriptor_count(&section), Ok(0));
    no_list(|n| descriptor(&section, n));
    no_list(|n| upid(&section, n));
}

#[test]
fn known_descriptors_stand_under_every_command() {
    let commands = [
        ("00", ""),
        ("04", "00"),
        ("05", "00000009 80"),
        ("06", "7F"),
        ("07", ""),
        ("FF", "41424344 01"),
        ("A5", "0102"),
    ];
    for (kind, body) in commands {
        let section = with_both(
            kind,
            body,
            &[(2, "43554549", "00000001 7F BF 09 02 ABCD 10 01 01")],
        );
        assert_eq!(descriptor_count(&section), Ok(1));
        let expected: &[u64] = &[2, 1, 0, 0, 0, 9, 2, 0x10, 1, 1, 0];
        lists(|n| descriptor(&section, n), &[expected]);
        assert_eq!(upid(&section, 0).unwrap().bytes, [0xAB, 0xCD]);
    }
}

#[test]
fn dtmf_characters() {
    let section = with_known(&[(1, "00 1F"), (1, "FF FF 31323334353637"), (0, "00000000")]);
    lists(
        |n| descriptor(&section, n),
        &[&[1, 0, 0], &[1, 255, 7], &[0, 0]],
    );
    no_list(|m| dtmf_char(&section, 0, m));
    let expected: [&[u64]; 7] = [
        &[0x31],
        &[0x32],
        &[0x33],
        &[0x34],
        &[0x35],
        &[0x36],
        &[0x37],
    ];
    lists(|m| dtmf_char(&section, 1, m), &expected);
    for n in [2, 3, 4, 5].into_iter().chain(FAR) {
        no_list(|m| dtmf_char(&section, n, m));
    }
}

#[test]
fn audio_components() {
    let fifteen: String = (0..15).map(|tag| format!("{tag:02x} 656E67 00")).collect();
    let fifteen = format!("F0 {fifteen}");
    let section = with_known(&[
        (4, "0F"),
        (4, "30 AA656E67 FF BB000001 81 CCFFFFFF 7E"),
        (4, &fifteen),
    ]);
    lists(|n| descriptor(&section, n), &[&[5, 0], &[5, 3], &[5, 15]]);
    no_list(|m| audio_component(&section, 0, m));
    let expected: [&[u64]; 3] = [
        &[0xAA, 0x0065_6E67, 7, 15, 1],
        &[0xBB, 1, 4, 0, 1],
        &[0xCC, 0x00FF_FFFF, 3, 15, 0],
    ];
    lists(|m| audio_component(&section, 1, m), &expected);
    let expected: Vec<[u64; 5]> = (0..15).map(|tag| [tag, 0x0065_6E67, 0, 0, 0]).collect();
    let expected: Vec<&[u64]> = expected.iter().map(|list| list.as_slice()).collect();
    lists(|m| audio_component(&section, 2, m), &expected);
    for n in [3, 4, 5].into_iter().chain(FAR) {
        no_list(|m| audio_component(&section, n, m));
    }
    let second = AudioComponent {
        component_tag: 0xBB,
        iso_code: 1,
        bit_stream_mode: 4,
        num_channels: 0,
        full_srvc_audio: true,
    };
    assert_eq!(audio_component(&section, 1, 1), Ok(second));
}

#[test]
fn a_descriptor_has_its_own_list_only() {
    let section = with_known(&[
        (0, "00000000"),
        (1, "00 20 31"),
        (2, "00000001 7F 3F 01 AA 0000000000 00 00 10 01 01"),
        (2, "00000001 80"),
        (3, "000000000000 00000000 0000"),
        (4, "10 AA656E67 FF"),
    ]);
    for n in 0..8 {
        assert_eq!(dtmf_char(&section, n, 0).is_ok(), n == 1);
        assert_eq!(segmentation_component(&section, n, 0).is_ok(), n == 2);
        assert_eq!(upid(&section, n).is_ok(), n == 2);
        assert_eq!(audio_component(&section, n, 0).is_ok(), n == 5);
    }
}
