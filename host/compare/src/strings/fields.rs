//! Numbers, fields, GUIDs and names on both sides of each bound.

use super::probe::Probe;
use crate::run::{Outcome, Run};
use testkit::disk::{Shape, SHAPES};
use testkit::strings::{guid, numbered_guid, SHORT_NAMES};

/// The blocks of the disk.
const N: u64 = 300;

/// Words where a number can stand.
const NUMBERS: &[&str] = &[
    "0",
    "00",
    "000000000000000000000",
    "0KiB",
    "00MiB",
    "0GiB",
    "1",
    "01",
    "511",
    "512",
    "513",
    "0512",
    "000000000000000000000000000000000000000000000512",
    "1024",
    "4095",
    "4096",
    "4097",
    "0004096",
    "8192",
    "17408",
    "24576",
    "1KiB",
    "4KiB",
    "004KiB",
    "6KiB",
    "00000000000000000000000000000000000024KiB",
    "100KiB",
    "512KiB",
    "1MiB",
    "01MiB",
    "1GiB",
    "4GiB",
    "1TiB",
    "1KB",
    "4K",
    "4M",
    "4G",
    "4Ki",
    "4kiB",
    "4KIB",
    "4Kib",
    "4kib",
    "4KiBs",
    "4KiB4",
    "4KiBKiB",
    "4KiBMiB",
    "4 KiB",
    "60Mib",
    "4B",
    "KiB",
    "MiB",
    "B",
    "",
    "0x1000",
    "1000h",
    "0b1",
    "0o7",
    "010",
    "01000",
    "1e3",
    "4.0",
    "4,096",
    "4_096",
    "+4096",
    "-4096",
    "-0",
    "4096:",
    "4096/",
    "/",
    ":",
    "a",
    "4294967295",
    "4294967296",
    "4294971392",
    "4194304KiB",
    "4096MiB",
    "9223372036854775808",
    "18446744073709547520",
    "18446744073709551104",
    "18446744073709551103",
    "18446744073709551614",
    "18446744073709551615",
    "18446744073709551616",
    "18446744073709551617",
    "18446744073709555712",
    "0018446744073709551615",
    "0018446744073709551616",
    "18014398509481980KiB",
    "18014398509481983KiB",
    "18014398509481984KiB",
    "18014398509481988KiB",
    "17592186044415MiB",
    "17592186044416MiB",
    "17592186044417MiB",
    "17179869183GiB",
    "17179869184GiB",
    "17179869185GiB",
    "18446744073709551615KiB",
    "18446744073709551616KiB",
    "18446744073709551615GiB",
    "184467440737095516160",
    "36893488147419107328",
    "340282366920938463463374607431768211456",
    "340282366920938463463374607431768215552",
    "99999999999999999999999999999999999999999999999999999999999999",
];

fn a_guid(number: u64) -> String {
    numbered_guid(0x100 + number)
}

fn of(partitions: &[String]) -> String {
    format!("uuid_disk={};{}", a_guid(0), partitions.join(";"))
}

/// Each word as the size of the last partition and of another one, as its start, and as both.
pub fn numbers(run: &mut Run) -> Outcome {
    for shape in SHAPES {
        let probe = Probe::new(run, shape, N);
        let (one, other) = (a_guid(1), a_guid(2));
        let last = format!("name=b,size={},uuid={other}", shape.block);
        for word in NUMBERS {
            let size = format!("name=a,size={word},uuid={one}");
            let start = format!("name=a,start={word},size={},uuid={one}", shape.block);
            let both = format!("name=a,start={word},size={word},uuid={one}");
            for partitions in
                [vec![size.clone()], vec![size, last.clone()], vec![start, last.clone()], vec![both]]
            {
                probe.build(run, 1, of(&partitions))?;
            }
        }
    }
    Ok(())
}

/// Each choice of the six fields, in an order and against it; all of them in every rotation; each of them twice; one in other
/// words.
pub fn fields(run: &mut Run) -> Outcome {
    for shape in SHAPES {
        let probe = Probe::new(run, shape, N);
        let all = all_fields(shape);
        for choice in 0..1_u32 << all.len() {
            let chosen = |place: &usize| choice >> place & 1 == 1;
            let mut fields: Vec<&str> = (0..all.len()).filter(chosen).map(|place| &all[place][..]).collect();
            probe.build(run, 1, of(&[fields.join(",")]))?;
            fields.reverse();
            probe.build(run, 8, of(&[fields.join(","), format!("name=z,size=0,uuid={}", a_guid(9))]))?;
        }
        for place in 0..all.len() {
            let mut fields = all.to_vec();
            fields.rotate_left(place);
            probe.build(run, 1, of(&[fields.join(",")]))?;
            for twice in &all {
                let text = |fields: &[String]| of(&[fields.join(",")]);
                probe.build(run, 1, text(&[&fields[..], std::slice::from_ref(twice)].concat()))?;
            }
            for other in others(&all[place]) {
                let mut fields = all.to_vec();
                fields[place] = other;
                probe.build(run, 1, of(&[fields.join(",")]))?;
            }
        }
    }
    Ok(())
}

fn all_fields(shape: Shape) -> [String; 6] {
    [
        "name=a".into(),
        format!("size={}", shape.block),
        format!("uuid={}", a_guid(1)),
        format!("start={}", 100 * shape.block),
        "type=swap".into(),
        "bootable".into(),
    ]
}

/// A field in other words, each of which is out of form, but for a name.
fn others(field: &str) -> Vec<String> {
    let (key, value) = field.split_once('=').unwrap_or((field, ""));
    let mut others = vec![
        String::new(),
        key.to_string(),
        format!("{key}="),
        format!("{key}=="),
        format!("{key}=={value}"),
        format!("{key}={value}="),
        format!("={value}"),
        format!("{key} ={value}"),
        format!(" {key}={value}"),
        format!("{key}= {value}"),
        format!("{key}={value} "),
        format!("{key}={value}\n"),
        format!("{}={value}", key.to_uppercase()),
        format!("{}={value}", &key[1..]),
        format!("{key}s={value}"),
        format!("{key}:{value}"),
        format!("{key}=\"{value}\""),
        format!("{key}={value},"),
        format!(",{key}={value}"),
        format!("{key}={value},flags=1"),
        format!("{key}={value},uuid_disk={}", a_guid(7)),
    ];
    others.extend(
        ["uuid_disk", "name", "size", "uuid", "start", "type", "bootable", "flags", ""].map(String::from),
    );
    others
}

/// GUIDs of the disk, of a partition and of its type, and types by name.
pub fn guids(run: &mut Run) -> Outcome {
    for shape in SHAPES {
        let probe = Probe::new(run, shape, N);
        let texts = [(); 3].map(|()| guid(&mut run.random));
        bad_guids(run, &probe, &texts)?;
        zero_guids(run, &probe, &texts)?;
        types(run, &probe, &texts)?;
        guids_twice(run, &probe, &texts)?;
    }
    Ok(())
}

/// A string with one partition, of these three GUIDs.
fn with_guids(shape: Shape, [disk, unique, kind]: [&str; 3]) -> String {
    format!("uuid_disk={disk};name=a,size={},uuid={unique},type={kind}", shape.block)
}

/// Another byte, or none, or two, at each place.
fn bad_guids(run: &mut Run, probe: &Probe, texts: &[String; 3]) -> Outcome {
    for at in 0..36 {
        for byte in ["-", "g", "G", "0", "f", "/", ":", "@", "`", " ", "", "00"] {
            let mut texts = texts.clone();
            texts[run.random.below(3)].replace_range(at..at + 1, byte);
            probe.build(run, 1, with_guids(probe.shape, texts.each_ref().map(String::as_str)))?;
        }
    }
    Ok(())
}

const ZERO: &str = "00000000-0000-0000-0000-000000000000";

/// Zero, zero but for a digit, and what is no GUID, as each of the three and as all.
fn zero_guids(run: &mut Run, probe: &Probe, [a, b, c]: &[String; 3]) -> Outcome {
    let sparse = |at: usize| format!("{}1{}", &ZERO[..at], &ZERO[at + 1..]);
    let near_zero = [0, 7, 9, 14, 19, 24, 35].map(sparse);
    for guid in near_zero.iter().map(String::as_str).chain([ZERO, a, "", "data", "{}"]) {
        for guids in [[guid, b, c], [a, guid, c], [a, b, guid], [guid; 3]] {
            probe.build(run, 1, with_guids(probe.shape, guids))?;
        }
    }
    Ok(())
}

/// Short names and their GUIDs, what is near one, and those of document 004.
fn types(run: &mut Run, probe: &Probe, [a, b, _]: &[String; 3]) -> Outcome {
    for (name, guid) in SHORT_NAMES {
        for kind in [
            name.to_string(),
            name.to_uppercase(),
            name[1..].to_string(),
            format!("{name}x"),
            format!("{name} "),
            guid.to_string(),
            guid.to_lowercase(),
            format!("{guid}0"),
        ] {
            probe.build(run, 1, with_guids(probe.shape, [a, b, &kind]))?;
            probe.build(run, 1, with_guids(probe.shape, [a, &kind, b]))?;
        }
    }
    for kind in ["mbr", "raid", "lvm", "efi", "home", "0700", "8300", "024DEE41-33E7-11D3-9D69-0008C781F39F"]
    {
        probe.build(run, 1, with_guids(probe.shape, [a, b, kind]))?;
    }
    Ok(())
}

/// The disk's own GUID, and one twice in either case.
fn guids_twice(run: &mut Run, probe: &Probe, [a, b, c]: &[String; 3]) -> Outcome {
    probe.build(run, 1, with_guids(probe.shape, [a; 3].map(String::as_str)))?;
    let first = with_guids(probe.shape, [a, &b.to_lowercase(), c]);
    let second = format!("name=b,size={},uuid={}", probe.shape.block, b.to_uppercase());
    probe.build(run, 1, format!("{first};{second}"))?;
    Ok(())
}

/// Names of every length to 40 and with every byte; names that differ in a byte, in case or in length alone.
pub fn names(run: &mut Run) -> Outcome {
    let probes = SHAPES.map(|shape| Probe::new(run, shape, N));
    let one = |probe: &Probe, name: &[u8]| {
        let rest = format!(",size={},uuid={}", probe.shape.block, a_guid(1));
        [format!("uuid_disk={};name=", a_guid(0)).as_bytes(), name, rest.as_bytes()].concat()
    };
    for probe in &probes {
        for len in 0..40 {
            probe.build(run, 1, one(probe, &b"n".repeat(len)))?;
            probe.build(run, 1, one(probe, &b"~=!".repeat(14)[..len]))?;
        }
    }
    for byte in 0..=u8::MAX {
        let probe = &probes[usize::from(byte) % 2];
        for name in [&[byte][..], &[b'a', byte], &[byte, b'a'], &[b'a', byte, b'b']] {
            probe.build(run, 1, one(probe, name))?;
        }
    }
    let long = "n".repeat(35);
    let pairs = [
        ("a", "a"),
        ("a", "A"),
        ("a", "aa"),
        ("ab", "ac"),
        ("ba", "ca"),
        ("a=b", "a=c"),
        ("=", "=="),
        (&format!("{long}a"), &format!("{long}b")),
        (&format!("{long}a"), &format!("{long}a")),
        (&long, &format!("{long}a")),
    ];
    for probe in &probes {
        for (first, second) in pairs {
            let size = probe.shape.block;
            let part = |name: &str, number| format!("name={name},size={size},uuid={}", a_guid(number));
            probe.build(run, 1, of(&[part(first, 1), part(second, 2)]))?;
            probe.build(run, 1, of(&[part(first, 1), part("other", 3), part(second, 2)]))?;
        }
    }
    Ok(())
}
