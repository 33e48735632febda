//! The layout strings of document 004, with what it leaves out filled in, and the disks that they become, worked out by hand.

/// A string on a disk of 200 MiB, and where its partitions stand.
pub struct Sample {
    pub text: String,
    pub block: u64,
    pub n: u64,
    pub alignment: u64,
    pub partitions: Vec<Stands>,
}

/// Name, type, first and last block, attributes.
pub type Stands = (&'static str, &'static str, u64, u64, u64);

pub const DISK: &str = "375A56F7-D6C9-4E81-B5F0-09D41CA89EFE";
const UBOOT: &str = "7B3A5D8E-8D5C-4F57-8D8A-2C1F0E9B6A01";
const KERNEL: &str = "7B3A5D8E-8D5C-4F57-8D8A-2C1F0E9B6A02";
const ROOTFS: &str = "7B3A5D8E-8D5C-4F57-8D8A-2C1F0E9B6A03";

const DATA: &str = "EBD0A0A2-B9E5-4433-87C0-68B6B72699C7";
const LINUX: &str = "0FC63DAF-8483-4772-8E79-3D69D8477DE4";

/// Block size, number of blocks and alignment; then where 60 MiB, another 60 MiB and the rest of the disk begin, and the last
/// usable block. 60 MiB are 122,880 blocks of 512 bytes, which is 60 times 2,048, or 15,360 of 4,096, which is 7.5 times 2,048.
const DISKS: [(u64, u64, u64, [u64; 4]); 6] = [
    (512, 409_600, 1, [34, 122_914, 245_794, 409_566]),
    (512, 409_600, 8, [40, 122_920, 245_800, 409_566]),
    (512, 409_600, 2048, [2048, 124_928, 247_808, 409_566]),
    (4096, 51_200, 1, [6, 15_366, 30_726, 51_194]),
    (4096, 51_200, 8, [8, 15_368, 30_728, 51_194]),
    (4096, 51_200, 2048, [2048, 18_432, 34_816, 51_194]),
];

/// Each string of document 004 on each disk.
pub fn samples() -> Vec<Sample> {
    DISKS.into_iter().flat_map(|(block, n, alignment, places)| on_disk(block, n, alignment, places)).collect()
}

fn on_disk(block: u64, n: u64, alignment: u64, [one, two, three, last]: [u64; 4]) -> Vec<Sample> {
    let uboot = format!("name=u-boot,size=60MiB,uuid={UBOOT}");
    let kernel = format!("name=kernel,size=60MiB,uuid={KERNEL}");
    let sample = |partitions: &[String], stands: Vec<Stands>| Sample {
        text: format!("uuid_disk={DISK};{}", partitions.join(";")),
        block,
        n,
        alignment,
        partitions: stands,
    };
    let first: Stands = ("u-boot", DATA, one, end(one, block), 0);
    vec![
        sample(
            &[uboot.clone(), format!("{kernel};")],
            vec![first, ("kernel", DATA, two, end(two, block), 0)],
        ),
        sample(&[format!("{uboot};")], vec![first]),
        sample(
            &[
                uboot.clone(),
                format!("name=boot,size=60MiB,bootable,uuid={KERNEL}"),
                format!("name=rootfs,size=0,uuid={ROOTFS}"),
            ],
            vec![first, ("boot", DATA, two, end(two, block), 4), ("rootfs", DATA, three, last, 0)],
        ),
        sample(
            &[uboot.clone(), format!("{kernel},type={LINUX};")],
            vec![first, ("kernel", LINUX, two, end(two, block), 0)],
        ),
        sample(
            &[uboot, format!("{kernel},type=linux;")],
            vec![first, ("kernel", LINUX, two, end(two, block), 0)],
        ),
    ]
}

/// The last block of 60 MiB.
fn end(first: u64, block: u64) -> u64 {
    first + (60 << 20) / block - 1
}

/// Strings as document 004 prints them, each refused: no GUIDs of its own, variables, blanks between lines, `60Mib`; and types
/// that 01 does not have.
pub fn as_printed() -> Vec<String> {
    let uboot = format!("uuid_disk={DISK};name=u-boot,size=60MiB,uuid={UBOOT}");
    let types = ["mbr", "raid", "lvm"].map(|kind| format!("{uboot},type={kind}"));
    let printed = [
        "uuid_disk=...;name=u-boot,size=60MiB,uuid=...;\nname=kernel,size=60MiB,uuid=...;".to_string(),
        "uuid_disk=${uuid_gpt_disk};name=${uboot_name},\nsize=${uboot_size},uuid=${uboot_uuid};".to_string(),
        "uuid_disk=${uuid_gpt_disk};name=${uboot_name},size=${uboot_size},uuid=${uboot_uuid};".to_string(),
        "name=u-boot,size=60MiB;name=boot,size=60Mib,bootable;name=rootfs,size=0".to_string(),
        format!("{uboot};\nname=kernel,size=60MiB,uuid={KERNEL};"),
        format!("{uboot};name=boot,size=60Mib,bootable,uuid={KERNEL}"),
        format!("{uboot};name=boot,size=60MiB,bootable"),
        format!("name=u-boot,size=60MiB,uuid={UBOOT}"),
    ];
    printed.into_iter().chain(types).collect()
}
