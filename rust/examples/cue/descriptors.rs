//! The known descriptors of a cue in words.

use crate::{measured, spaced};
use timpanimist::*;

pub fn print(section: &[u8]) -> Result<(), Refusal> {
    println!("known descriptors: {}", known_count(section)?);
    for (n, descriptor) in known_descriptors(section)?.enumerate() {
        print!("descriptor {n}: ");
        print_descriptor(section, n, descriptor)?;
    }
    Ok(())
}

fn print_descriptor(section: &[u8], n: usize, descriptor: Descriptor) -> Result<(), Refusal> {
    match descriptor {
        Descriptor::Avail { provider_avail_id } => {
            println!("avail\n  provider_avail_id {provider_avail_id}");
        }
        Descriptor::Dtmf { preroll, .. } => {
            println!("DTMF\n  preroll {preroll}");
            println!("  DTMF_char{}", spaced(dtmf_chars(section, n)?));
        }
        Descriptor::Segmentation(segmentation) => print_segmentation(section, n, segmentation)?,
        Descriptor::CancelledSegmentation {
            segmentation_event_id,
        } => {
            println!("segmentation, cancelled");
            println!("  segmentation_event_id {}", segmentation_event_id.0);
        }
        Descriptor::Time {
            tai_seconds,
            tai_ns,
            utc_offset,
        } => {
            println!("time\n  TAI_seconds {tai_seconds}");
            println!("  TAI_ns {tai_ns}\n  UTC_offset {utc_offset}");
        }
        Descriptor::Audio { audio_count } => {
            println!("audio\n  audio_count {audio_count}");
            audio_components(section, n)?.for_each(print_audio_component);
        }
    }
    Ok(())
}

fn print_segmentation(section: &[u8], n: usize, said: Segmentation) -> Result<(), Refusal> {
    println!(
        "segmentation\n  segmentation_event_id {}",
        said.segmentation_event_id.0
    );
    match said.mode {
        Mode::Program => println!("  program"),
        Mode::Components { component_count } => println!("  component_count {component_count}"),
    }
    print_delivery(said.delivery);
    match said.duration {
        Duration::Absent => println!("  segmentation_duration absent"),
        Duration::Present(ticks) => println!("  segmentation_duration {}", measured(ticks)),
    }
    let upid = upid(section, n)?;
    println!("  segmentation_upid_type {}", said.segmentation_upid_type);
    println!(
        "  segmentation_upid_length {}",
        said.segmentation_upid_length
    );
    println!("  segmentation_upid{}", spaced(upid.iter().copied()));
    println!("  segmentation_type_id 0x{:02x}", said.segmentation_type_id);
    println!("  segment_num {}", said.segment_num);
    println!("  segments_expected {}", said.segments_expected);
    print_sub_segments(said.sub_segments);
    segmentation_components(section, n)?.for_each(print_segmentation_component);
    Ok(())
}

fn print_sub_segments(sub_segments: SubSegments) {
    if let SubSegments::Present {
        sub_segment_num,
        sub_segments_expected,
    } = sub_segments
    {
        println!("  sub_segment_num {sub_segment_num}");
        println!("  sub_segments_expected {sub_segments_expected}");
    }
}

fn print_segmentation_component(component: SegmentationComponent) {
    let SegmentationComponent {
        component_tag,
        pts_offset,
    } = component;
    println!(
        "  component_tag {component_tag}, pts_offset {}",
        pts_offset.0
    );
}

fn print_delivery(delivery: Delivery) {
    match delivery {
        Delivery::NotRestricted => println!("  delivery not restricted"),
        Delivery::Restricted {
            web_delivery_allowed_flag,
            no_regional_blackout_flag,
            archive_allowed_flag,
            device_restrictions,
        } => {
            println!(
                "  web_delivery_allowed_flag {}",
                web_delivery_allowed_flag as u8
            );
            println!(
                "  no_regional_blackout_flag {}",
                no_regional_blackout_flag as u8
            );
            println!("  archive_allowed_flag {}", archive_allowed_flag as u8);
            println!("  device_restrictions {device_restrictions}");
        }
    }
}

fn print_audio_component(component: AudioComponent) {
    let AudioComponent {
        component_tag,
        iso_code,
        bit_stream_mode,
        num_channels,
        ..
    } = component;
    print!("  component_tag {component_tag}, ISO_code 0x{iso_code:06x}");
    print!(", Bit_Stream_Mode {bit_stream_mode}, Num_Channels {num_channels}");
    println!(", Full_Srvc_Audio {}", component.full_srvc_audio as u8);
}
