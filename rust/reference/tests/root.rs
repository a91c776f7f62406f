//! The root signature: refusals 46 to 51, the fields of items and ranges, the bits
//! of floats, an item or range by itself, the report on a container, and the lines
//! of `show`.

mod common;
use common::*;
use reference::{
    open, root_item, root_range, root_report, root_signature, show, table_part, RootItem,
    RootRange, RootSignature,
};
use std::path::Path;

/// The versions 1.0 and 1.1 as the file has them.
const VERSIONS: [u32; 2] = [1, 2];

/// The sizes of a descriptor and of a range in a version.
fn sizes(version: u32) -> (usize, usize) {
    if version == 1 {
        (8, 20)
    } else {
        (12, 24)
    }
}

/// Data with this header, then any bytes: version, number and offset of the
/// parameters, number and offset of the samplers.
fn data(header: [u32; 5], rest: &[u8]) -> Vec<u8> {
    let mut data = words(&header);
    data.extend(words(&[0xf1a9]));
    data.extend_from_slice(rest);
    data
}

/// Data of a length with this header, and zeros for the rest.
fn zeros(header: [u32; 5], length: usize) -> Vec<u8> {
    data(header, &vec![0; length - 24])
}

/// Data with these parameters right after the header, then the bytes, and no
/// samplers.
fn with_parameters(version: u32, parameters: &[[u32; 3]], rest: &[u8]) -> Vec<u8> {
    let mut all = words(&parameters.concat());
    all.extend_from_slice(rest);
    data([version, parameters.len() as u32, 24, 0, 0], &all)
}

/// Data with these parameters, then as many samplers, their fields rising numbers.
fn with_items(version: u32, parameters: &[[u32; 3]], samplers: u32) -> Vec<u8> {
    let at = 24 + 12 * parameters.len() as u32;
    let mut all = words(&parameters.concat());
    all.extend(words(&(0..13 * samplers).collect::<Vec<u32>>()));
    data([version, parameters.len() as u32, 24, samplers, at], &all)
}

/// All of an item, with the bits of its floats: a number for its kind first.
fn flat(item: RootItem) -> Vec<Option<u32>> {
    let (kind, fields) = match item {
        RootItem::Constants { visibility, register, space, count } => {
            (Some(1), vec![visibility, register, space, count])
        }
        RootItem::Descriptor { kind, visibility, register, space, flags } => {
            let numbers = [Some(kind), Some(visibility), Some(register), Some(space), flags];
            return numbers.to_vec();
        }
        RootItem::Table { visibility, ranges, offset } => {
            (Some(0), vec![visibility, ranges, offset])
        }
        RootItem::Sampler {
            filter,
            address_u,
            address_v,
            address_w,
            lod_bias,
            anisotropy,
            comparison,
            border,
            least_lod,
            greatest_lod,
            register,
            space,
            visibility,
        } => {
            let mut fields = vec![filter, address_u, address_v, address_w, lod_bias.to_bits()];
            fields.extend([anisotropy, comparison, border]);
            fields.extend([least_lod.to_bits(), greatest_lod.to_bits()]);
            fields.extend([register, space, visibility]);
            (None, fields)
        }
    };
    std::iter::once(kind).chain(fields.into_iter().map(Some)).collect()
}

/// The refusal is the same alone and in a container, which still opens.
fn refuses(data: &[u8], number: u8, place: usize) {
    assert_eq!(root_signature(data), refused(number, place), "alone");
    let psv0 = box_c().bytes();
    let bytes = container(&[(b"DXIL", b"code"), (b"RTS0", data), (b"PSV0", &psv0)]);
    for edition in 0..=3 {
        assert_eq!(answer(open(&bytes, edition)), Ok(()));
        assert_eq!(root_report(&bytes, edition), refused(number, place));
    }
    let last = format!("\nroot_signature refused {number} {place}\n");
    assert!(show(&bytes, 3).ends_with(&last));
    if number >= 48 {
        assert_eq!(answer(root_item(data, place)), refused(number, place), "by itself");
        assert_eq!(root_range(data, place, 0), refused(number, place));
        assert_eq!(root_range(data, place, usize::MAX), refused(number, place));
    }
}

/// Accepted, alone and in a container, and each item and range is the same by
/// itself. Gives the reading.
fn accepts(data: &[u8]) -> RootSignature<'_> {
    let alone = root_signature(data).expect("accepted alone");
    let psv0 = box_m().bytes();
    let bytes = container(&[(b"RTS0", data), (b"PSV0", &psv0), (b"DXIL", b"code")]);
    for edition in 0..=3 {
        let report = root_report(&bytes, edition).expect("accepted in a container");
        let fields = |r: &RootSignature| (r.version, r.parameters, r.samplers, r.flags);
        assert_eq!(fields(&report), fields(&alone));
        same_items(&report, &alone, data);
    }
    alone
}

/// Both readings have the same items and ranges, which by themselves are the
/// same, and neither has more.
fn same_items(one: &RootSignature, other: &RootSignature, data: &[u8]) {
    let count = other.parameters as usize + other.samplers as usize;
    for i in 0..count {
        let item = other.item(i).expect("there");
        assert_eq!(one.item(i).map(flat), Ok(flat(item)));
        assert_eq!(root_item(data, i).map(flat), Ok(flat(item)));
        let ranges = match item {
            RootItem::Table { ranges, .. } => ranges as usize,
            _ => 0,
        };
        for j in 0..ranges {
            let range = other.range(i, j).expect("there");
            assert_eq!(one.range(i, j), Ok(range));
            assert_eq!(root_range(data, i, j), Ok(range));
        }
        for j in [ranges, ranges + 1, 1 << 32, usize::MAX] {
            assert_eq!(one.range(i, j), refused(26, 0));
            assert_eq!(root_range(data, i, j), refused(26, 0));
        }
    }
    for i in [count, count + 1, 1 << 33, usize::MAX] {
        assert_eq!(answer(one.item(i)), refused(26, 0));
        assert_eq!(answer(root_item(data, i)), refused(26, 0));
        for j in [0, usize::MAX] {
            assert_eq!(one.range(i, j), refused(26, 0));
            assert_eq!(root_range(data, i, j), refused(26, 0));
        }
    }
}

#[test]
fn under_24_bytes() {
    for version in [0, 1, 2, 3] {
        // The other counts would give 48, the version at times 47.
        let whole = zeros([version, u32::MAX, 0, u32::MAX, 0], 24);
        for length in 0..24 {
            refuses(&whole[..length], 46, 0);
            for i in [0, 1, usize::MAX] {
                assert_eq!(answer(root_item(&whole[..length], i)), refused(46, 0));
                assert_eq!(root_range(&whole[..length], i, i), refused(46, 0));
            }
        }
    }
    for version in VERSIONS {
        accepts(&zeros([version, 0, 0, 0, 0], 24));
        accepts(&zeros([version, 0, 0, 0, 0], 25));
    }
}

#[test]
fn the_version() {
    let bad = [0, 3, 4, 255, 256, 257, 258, 1 << 16, 1 << 24, 1 << 31, u32::MAX - 1, u32::MAX];
    for version in bad {
        // 47 before what the items have, and before 26.
        for counts in [0, 1, u32::MAX] {
            let whole = zeros([version, counts, u32::MAX, counts, u32::MAX], 100);
            refuses(&whole, 47, 0);
            for i in [0, usize::MAX] {
                assert_eq!(answer(root_item(&whole, i)), refused(47, 0));
                assert_eq!(root_range(&whole, i, i), refused(47, 0));
            }
        }
    }
    for version in VERSIONS {
        assert_eq!(accepts(&zeros([version, 0, 0, 0, 0], 24)).version, version);
    }
}

#[test]
fn the_header() {
    for flags in [0, 1, 0x1234_5678, u32::MAX] {
        for version in VERSIONS {
            let mut whole = with_items(version, &[[1, 0, 0], [4, 0, 0]], 1);
            put4(&mut whole, 20, flags);
            let read = accepts(&whole);
            assert_eq!(
                (read.version, read.parameters, read.samplers, read.flags),
                (version, 2, 1, flags)
            );
        }
    }
    // An offset without items isn't judged.
    for offset in [0, 1, 23, 24, 25, 1 << 31, u32::MAX] {
        for version in VERSIONS {
            accepts(&zeros([version, 0, offset, 0, u32::MAX], 24));
            accepts(&zeros([version, 0, u32::MAX, 0, offset], 24));
        }
    }
}

/// Data of a length with constants at the offset, as many of them as lie after the
/// header. Their data are the header.
fn constants_at(version: u32, count: usize, offset: u32, length: usize) -> Vec<u8> {
    let mut whole = zeros([version, count as u32, offset, 0, 0], length);
    for at in (offset as usize..length.saturating_sub(3)).step_by(12) {
        put4(&mut whole, at, 1);
    }
    whole
}

/// Data of a length with samplers at the offset.
fn samplers_at(version: u32, count: usize, offset: u32, length: usize) -> Vec<u8> {
    zeros([version, 0, 0, count as u32, offset], length)
}

#[test]
fn the_end_of_an_item() {
    type Made = fn(u32, usize, u32, usize) -> Vec<u8>;
    let kinds: [(u32, Made); 2] = [(12, constants_at), (52, samplers_at)];
    for version in VERSIONS {
        for (size, made) in kinds {
            for count in [1, 2, 3, 9] {
                let all = size * count as u32;
                for length in [24 + all, 25 + all, 300 + all] {
                    let of = |count, offset| made(version, count, offset, length as usize);
                    let last = length - all;
                    accepts(&of(count, last));
                    // The last one passes the end by one byte, by all but one, by all.
                    for more in [1, 2, size - 1, size] {
                        refuses(&of(count, last + more), 48, count - 1);
                    }
                    refuses(&of(count + 1, last), 48, count);
                    refuses(&of(count, last)[..length as usize - 1], 48, count - 1);
                    // The first one does.
                    for offset in [length - size + 1, length, length + 1, u32::MAX] {
                        refuses(&of(count, offset), 48, 0);
                    }
                }
            }
        }
    }
}

#[test]
fn counts_near_the_greatest() {
    for version in VERSIONS {
        for count in [1 << 30, 1 << 31, (1 << 31) + 1, 357_913_942, u32::MAX - 1, u32::MAX] {
            // As many parameters as fit are constants on the header's bytes.
            for fit in [0, 1, 5] {
                let mut whole = with_parameters(version, &vec![[1, 0, 0]; fit], b"");
                put4(&mut whole, 4, count);
                refuses(&whole, 48, fit);
                for i in [fit + 1, 1 << 28, count as usize - 1] {
                    assert_eq!(answer(root_item(&whole, i)), refused(48, i));
                }
                let mut whole = with_items(version, &[[1, 0, 0]; 2], fit as u32);
                put4(&mut whole, 12, count);
                refuses(&whole, 48, 2 + fit);
                assert_eq!(answer(root_item(&whole, count as usize + 1)), {
                    refused(48, count as usize + 1)
                });
                assert_eq!(answer(root_item(&whole, count as usize + 2)), refused(26, 0));
            }
        }
        // Parameters + samplers is past 2^32: the sum is exact.
        let most = zeros([version, u32::MAX, 24, u32::MAX, 24], 200);
        for i in [u32::MAX as usize, (1 << 33) - 3] {
            let sampler = i - u32::MAX as usize;
            let expected = if sampler < 3 { Ok(()) } else { refused(48, i) };
            assert_eq!(answer(root_item(&most, i)), expected, "{i}");
        }
        for i in [(1 << 33) - 2, (1 << 33) - 1, usize::MAX] {
            assert_eq!(answer(root_item(&most, i)), refused(26, 0));
        }
    }
}

#[test]
fn no_place_wraps() {
    for version in VERSIONS {
        // At 32 bits these would start at 0 to 24, or end inside.
        for offset in [u32::MAX - 51, u32::MAX - 27, u32::MAX - 11, u32::MAX - 3, u32::MAX] {
            refuses(&zeros([version, 1, offset, 0, 0], 300), 48, 0);
            refuses(&zeros([version, 0, 0, 1, offset], 300), 48, 0);
            for kind in 0..5 {
                refuses(&with_parameters(version, &[[kind, 0, offset]], &[0; 99]), 50, 0);
            }
        }
        // 12 i and 52 j are 2^32 and a little more.
        let whole = zeros([version, u32::MAX, 24, 0, 0], 300);
        for i in [357_913_942, 1 << 30, 1 << 31, 3 << 30] {
            assert_eq!(answer(root_item(&whole, i)), refused(48, i));
        }
        let whole = zeros([version, 0, 0, u32::MAX, 24], 300);
        for j in [82_595_525, 1 << 30, 1 << 31, 3 << 30] {
            assert_eq!(answer(root_item(&whole, j)), refused(48, j));
        }
    }
}

#[test]
fn the_type() {
    for version in VERSIONS {
        let with = |kind| with_parameters(version, &[[kind, 7, 36]], &words(&[0, 0, 0]));
        for kind in 0..5 {
            let whole = with(kind);
            let item = accepts(&whole).item(0).unwrap();
            let flags = Some(0).filter(|_| version == 2);
            let expected = match kind {
                0 => RootItem::Table { visibility: 7, ranges: 0, offset: 0 },
                1 => RootItem::Constants { visibility: 7, register: 0, space: 0, count: 0 },
                _ => RootItem::Descriptor { kind, visibility: 7, register: 0, space: 0, flags },
            };
            assert_eq!(item, expected);
        }
        for kind in [5, 6, 255, 256, 1 << 16, 1 << 24, 1 << 31, u32::MAX] {
            refuses(&with(kind), 49, 0);
        }
    }
}

#[test]
fn the_end_of_the_data() {
    for version in VERSIONS {
        for kind in 0..5 {
            let size = match kind {
                0 => 8,
                1 => 12,
                _ => sizes(version).0,
            };
            for length in [36 + size, 37 + size, 200] {
                let rest = vec![0; length - 36];
                let last = (length - size) as u32;
                let of = |offset| with_parameters(version, &[[kind, 0, offset]], &rest);
                accepts(&of(36));
                accepts(&of(last));
                // In the header and the parameter, too; as a table these numbers
                // aren't good.
                for offset in 0..36 {
                    if kind != 0 {
                        accepts(&of(offset));
                    }
                }
                for more in [1, 2, 3, 4, size as u32 - 1, size as u32, size as u32 + 1] {
                    refuses(&of(last + more), 50, 0);
                }
                for offset in [length as u32, length as u32 + 1, 1 << 31, u32::MAX] {
                    refuses(&of(offset), 50, 0);
                }
                refuses(&of(last)[..length - 1], 50, 0);
            }
        }
    }
}

#[test]
fn the_end_of_the_ranges() {
    for version in VERSIONS {
        let size = sizes(version).1;
        for count in [0, 1, 2, 3, 9] {
            for length in [44 + size * count, 45 + size * count, 100 + size * count] {
                let of = |count: usize, offset: usize| {
                    let mut rest = words(&[count as u32, offset as u32]);
                    rest.resize(length - 36, 0);
                    with_parameters(version, &[[0, 3, 36]], &rest)
                };
                // Anywhere in the data, the header too.
                let last = length - size * count;
                for offset in [0, 1, 24, 40, last - 1, last] {
                    let whole = of(count, offset);
                    let expected = RootItem::Table {
                        visibility: 3,
                        ranges: count as u32,
                        offset: offset as u32,
                    };
                    assert_eq!(accepts(&whole).item(0), Ok(expected));
                }
                // With no ranges, too, an offset past the end.
                for offset in [last + 1, last + 2, last + size, u32::MAX as usize] {
                    refuses(&of(count, offset), 51, 0);
                }
                refuses(&of(count + 1, last), 51, 0);
                refuses(&of(count + 1, last + 1 - size), 51, 0);
                accepts(&of(count + 1, last - size));
                if length > 44 {
                    refuses(&of(count, last)[..length - 1], 51, 0);
                }
            }
        }
    }
}

#[test]
fn no_end_of_ranges_wraps() {
    for version in VERSIONS {
        // 20 x 214,748,365 is 2^32 + 4, 24 x 178,956,971 is 2^32 + 8; 20 x 2^30 and
        // its like are 0 at 32 bits.
        let counts = [214_748_365, 178_956_971, 1 << 29, 1 << 30, 1 << 31, 3 << 30, u32::MAX];
        for count in counts {
            for offset in [0, 36, 44, 144, u32::MAX - 7, u32::MAX] {
                let rest = [words(&[count, offset]), vec![0; 100]].concat();
                refuses(&with_parameters(version, &[[0, 0, 36]], &rest), 51, 0);
            }
        }
        // The sum is 2^32 and a little more or less.
        for offset in [u32::MAX - 23, u32::MAX - 19, u32::MAX - 3, u32::MAX] {
            for count in [0, 1, 2, 3] {
                let rest = [words(&[count, offset]), vec![0; 100]].concat();
                refuses(&with_parameters(version, &[[0, 0, 36]], &rest), 51, 0);
            }
        }
    }
}

/// What follows `n` parameters: the data of a table without ranges, then of one
/// whose ranges pass the end, and where both are.
fn tables(n: usize) -> (Vec<u8>, u32, u32) {
    let at = 24 + 12 * n as u32;
    (words(&[0, 0, u32::MAX, 0]), at, at + 8)
}

/// One of `n` parameters whose first failing check is the number.
fn bad_parameter(number: u8, n: usize) -> [u32; 3] {
    match number {
        49 => [5, 0, u32::MAX],
        50 => [1, 0, u32::MAX],
        _ => [0, 0, tables(n).2],
    }
}

#[test]
fn the_first_bad_item() {
    for version in VERSIONS {
        for n in [1, 2, 3, 8] {
            let (rest, good, _) = tables(n);
            for number in [49, 50, 51] {
                for first in 0..n {
                    // From that one on, all of them are bad; then that one alone.
                    let mut parameters = vec![[0, 0, good]; n];
                    parameters[first..].fill(bad_parameter(number, n));
                    refuses(&with_parameters(version, &parameters, &rest), number, first);
                    let mut parameters = vec![[0, 0, good]; n];
                    parameters[first] = bad_parameter(number, n);
                    let whole = with_parameters(version, &parameters, &rest);
                    refuses(&whole, number, first);
                    for i in 0..n {
                        let expected = if i == first { refused(number, i) } else { Ok(()) };
                        assert_eq!(answer(root_item(&whole, i)), expected);
                    }
                    // Samplers outside come after all parameters.
                    let mut whole = whole;
                    put4(&mut whole, 12, u32::MAX);
                    refuses(&whole, number, first);
                }
            }
        }
        // A sampler has the parameters' number before its own.
        for n in 0..4 {
            for m in 0..4 {
                let parameters = vec![[1, 0, 0]; n];
                accepts(&with_items(version, &parameters, m));
                let mut whole = with_items(version, &parameters, m);
                put4(&mut whole, 12, m + 1);
                refuses(&whole, 48, n + m as usize);
                put4(&mut whole, 12, u32::MAX);
                refuses(&whole, 48, n + m as usize);
                // Parameters come first, wherever the samplers are.
                put4(&mut whole, 4, 1 << 31);
                put4(&mut whole, 8, u32::MAX);
                refuses(&whole, 48, 0);
            }
        }
    }
}

#[test]
fn an_earlier_item_and_a_later_check() {
    for version in VERSIONS {
        for first in [49, 50, 51] {
            for second in [49, 50, 51] {
                let parameters = [bad_parameter(first, 2), bad_parameter(second, 2)];
                refuses(&with_parameters(version, &parameters, &tables(2).0), first, 0);
            }
            // A sampler gives 48.
            let mut whole = with_parameters(version, &[bad_parameter(first, 1)], &tables(1).0);
            put4(&mut whole, 12, 1);
            put4(&mut whole, 16, u32::MAX);
            refuses(&whole, first, 0);
            assert_eq!(answer(root_item(&whole, 1)), refused(48, 1));
        }
        // The second parameter gives 48. The table's data are the header: its
        // ranges start at the number of parameters.
        for (first, own) in [(49, [5, 0, 0]), (50, [4, 0, u32::MAX]), (51, [0, 0, 0])] {
            let mut whole = with_parameters(version, &[own], b"");
            put4(&mut whole, 4, 17);
            refuses(&whole, first, 0);
            assert_eq!(answer(root_item(&whole, 1)), refused(48, 1));
        }
    }
}

#[test]
fn the_order_of_checks() {
    for version in VERSIONS {
        // One parameter, bad in each way from one check on.
        let bytes = words(&[5, 0, u32::MAX]);
        let whole = data([version, 1, 24, 0, 0], &bytes);
        refuses(&whole, 49, 0);
        refuses(&whole[..35], 48, 0);
        refuses(&whole[..24], 48, 0);
        refuses(&whole[..23], 46, 0);
        // Type 0: its data, then its ranges.
        let rest = words(&[u32::MAX, u32::MAX]);
        let whole = with_parameters(version, &[[0, 0, 36]], &rest);
        refuses(&whole, 51, 0);
        refuses(&whole[..43], 50, 0);
        refuses(&whole[..36], 50, 0);
        refuses(&whole[..35], 48, 0);
        let mut other = whole.clone();
        put4(&mut other, 24, 5);
        refuses(&other, 49, 0);
        put4(&mut other, 0, 3);
        refuses(&other, 47, 0);
    }
}

#[test]
fn every_field_of_a_parameter() {
    for version in VERSIONS {
        let rest: Vec<u8> = (1..=60).collect();
        for kind in 0..5 {
            for offset in [36, 37, 40] {
                let whole = with_parameters(version, &[[kind, 0xa1b2_c3d4, offset]], &rest);
                let number = |i: u32| {
                    let at = offset - 36 + 4 * i + 1;
                    (0..4).map(|k| (at + k) << (8 * k)).sum::<u32>()
                };
                let visibility = 0xa1b2_c3d4;
                let expected = match kind {
                    0 => {
                        assert_eq!(root_signature(&whole), refused(51, 0));
                        continue;
                    }
                    1 => RootItem::Constants {
                        visibility,
                        register: number(0),
                        space: number(1),
                        count: number(2),
                    },
                    _ => RootItem::Descriptor {
                        kind,
                        visibility,
                        register: number(0),
                        space: number(1),
                        flags: Some(number(2)).filter(|_| version == 2),
                    },
                };
                assert_eq!(accepts(&whole).item(0), Ok(expected));
            }
        }
        // The greatest numbers are shown.
        let greatest = |kind| with_parameters(version, &[[kind, u32::MAX, 36]], &[255; 12]);
        let max = u32::MAX;
        let flags = Some(max).filter(|_| version == 2);
        assert_eq!(
            accepts(&greatest(1)).item(0),
            Ok(RootItem::Constants { visibility: max, register: max, space: max, count: max })
        );
        assert_eq!(
            accepts(&greatest(3)).item(0),
            Ok(RootItem::Descriptor { kind: 3, visibility: max, register: max, space: max, flags })
        );
    }
}

#[test]
fn every_field_of_a_range() {
    // Flags stand before the offset in 1.1; 1.0 has the offset alone.
    let numbers: Vec<u32> = (0..12).map(|i| 0x0101_0101 * (i + 1)).collect();
    let of = |version| {
        let rest = [words(&[2, 44]), words(&numbers)].concat();
        with_parameters(version, &[[0, 5, 36]], &rest)
    };
    let range = |from: usize, flags, offset| {
        Ok(RootRange {
            kind: numbers[from],
            descriptors: numbers[from + 1],
            register: numbers[from + 2],
            space: numbers[from + 3],
            flags,
            offset,
        })
    };
    let old = of(1);
    let read = accepts(&old);
    assert_eq!(read.item(0), Ok(RootItem::Table { visibility: 5, ranges: 2, offset: 44 }));
    assert_eq!(read.range(0, 0), range(0, None, numbers[4]));
    assert_eq!(read.range(0, 1), range(5, None, numbers[9]));
    assert_eq!(read.range(0, 2), refused(26, 0));
    let new = of(2);
    let read = accepts(&new);
    assert_eq!(read.range(0, 0), range(0, Some(numbers[4]), numbers[5]));
    assert_eq!(read.range(0, 1), range(6, Some(numbers[10]), numbers[11]));
    assert_eq!(read.range(0, 2), refused(26, 0));
    // As a compiler writes it: no flags, appended.
    let rest = words(&[1, 44, 0, 1, 0, 0, 0, u32::MAX]);
    let whole = with_parameters(2, &[[0, 5, 36]], &rest);
    let range = accepts(&whole).range(0, 0).unwrap();
    assert_eq!((range.flags, range.offset), (Some(0), u32::MAX));
    // Whatever its numbers are.
    let rest = [words(&[1, 44]), vec![255; 24]].concat();
    for version in VERSIONS {
        let whole = with_parameters(version, &[[0, 5, 36]], &rest);
        let max = u32::MAX;
        let flags = Some(max).filter(|_| version == 2);
        let greatest = RootRange {
            kind: max,
            descriptors: max,
            register: max,
            space: max,
            flags,
            offset: max,
        };
        assert_eq!(accepts(&whole).range(0, 0), Ok(greatest));
    }
}

#[test]
fn every_field_of_a_sampler() {
    for version in VERSIONS {
        for gap in [0, 1, 5] {
            let fields: Vec<u32> = (0..26).map(|i| 0x0101_0101 * (i + 1)).collect();
            let rest = [vec![0; gap], words(&fields)].concat();
            let whole = data([version, 0, 0, 2, 24 + gap as u32], &rest);
            let read = accepts(&whole);
            for (j, fields) in fields.chunks(13).enumerate() {
                let expected = RootItem::Sampler {
                    filter: fields[0],
                    address_u: fields[1],
                    address_v: fields[2],
                    address_w: fields[3],
                    lod_bias: f32::from_bits(fields[4]),
                    anisotropy: fields[5],
                    comparison: fields[6],
                    border: fields[7],
                    least_lod: f32::from_bits(fields[8]),
                    greatest_lod: f32::from_bits(fields[9]),
                    register: fields[10],
                    space: fields[11],
                    visibility: fields[12],
                };
                assert_eq!(read.item(j), Ok(expected));
                let numbers: Vec<Option<u32>> =
                    std::iter::once(None).chain(fields.iter().copied().map(Some)).collect();
                assert_eq!(flat(expected), numbers);
            }
        }
        // The greatest numbers are shown; these floats are NaNs.
        let whole = data([version, 0, 0, 1, 24], &[255; 52]);
        let mut greatest = vec![Some(u32::MAX); 14];
        greatest[0] = None;
        assert_eq!(accepts(&whole).item(0).map(flat), Ok(greatest));
    }
}

/// Zeros, the least and greatest subnormals and normals, one, infinities, quiet
/// and signalling NaNs with payloads, of both signs.
const FLOATS: [u32; 14] = [
    0,
    1,
    0x007f_ffff,
    0x0080_0000,
    0x3f80_0000,
    0xc180_0000,
    0x7f7f_ffff,
    0x7f80_0000,
    0x7f80_0001,
    0x7fa0_1234,
    0x7fbf_ffff,
    0x7fc0_0000,
    0x7fc0_5678,
    0x7fff_ffff,
];

#[test]
fn the_bits_of_floats() {
    let signed = || FLOATS.into_iter().flat_map(|bits| [bits, bits ^ 1 << 31]);
    for version in VERSIONS {
        for bits in signed() {
            for other in signed() {
                let mut whole = data([version, 0, 0, 1, 24], &[0; 52]);
                // LOD bias, least and greatest LOD.
                for (at, bits) in [(16, bits), (32, other), (36, !bits)] {
                    put4(&mut whole, 24 + at, bits);
                }
                for item in [root_signature(&whole).unwrap().item(0), root_item(&whole, 0)] {
                    let Ok(RootItem::Sampler { lod_bias, least_lod, greatest_lod, .. }) = item
                    else {
                        panic!("no sampler");
                    };
                    assert_eq!(lod_bias.to_bits(), bits);
                    assert_eq!(least_lod.to_bits(), other);
                    assert_eq!(greatest_lod.to_bits(), !bits);
                }
                let psv0 = box_m().bytes();
                let bytes = container(&[(b"DXIL", b"c"), (b"PSV0", &psv0), (b"RTS0", &whole)]);
                let line = format!(
                    "\nitem 0 sampler filter 0 address_u 0 address_v 0 address_w 0 \
                     lod_bias {bits:08x} anisotropy 0 comparison 0 border 0 least_lod {other:08x} \
                     greatest_lod {:08x} register 0 space 0 visibility 0\n",
                    !bits
                );
                assert!(show(&bytes, 3).ends_with(&line));
            }
        }
    }
}

#[test]
fn items_and_data_may_overlap() {
    for version in VERSIONS {
        // Parameters and samplers over the header: the version is the first type,
        // and its data are at the parameters' offset, 0.
        let mut whole = zeros([version, 1, 0, 1, 0], 52);
        let read = accepts(&whole);
        let first = read.item(0).unwrap();
        let expected = match version {
            1 => RootItem::Constants { visibility: 1, register: 1, space: 1, count: 0 },
            _ => RootItem::Descriptor {
                kind: 2,
                visibility: 1,
                register: 2,
                space: 1,
                flags: Some(0),
            },
        };
        assert_eq!(first, expected);
        assert_eq!(flat(read.item(1).unwrap())[1..7], [version, 1, 0, 1, 0, 0xf1a9].map(Some));
        // Its own bytes as its data, and one data for several.
        whole = with_parameters(version, &[[1, 24, 24], [3, 0, 24], [3, 9, 24]], b"");
        let read = accepts(&whole);
        assert_eq!(
            read.item(0),
            Ok(RootItem::Constants { visibility: 24, register: 1, space: 24, count: 24 })
        );
        let flags = Some(24).filter(|_| version == 2);
        for (i, visibility) in [(1, 0), (2, 9)] {
            let shared =
                RootItem::Descriptor { kind: 3, visibility, register: 1, space: 24, flags };
            assert_eq!(read.item(i), Ok(shared));
        }
        // Two tables with one range, which is the first parameter and after.
        let parameters = [[0, 1, 48], [0, 2, 48]];
        whole = with_parameters(version, &parameters, &words(&[1, 24]));
        let read = accepts(&whole);
        let flags = Some(2).filter(|_| version == 2);
        let offset = if version == 2 { 48 } else { 2 };
        let range = RootRange { kind: 0, descriptors: 1, register: 48, space: 0, flags, offset };
        assert_eq!((read.range(0, 0), read.range(1, 0)), (Ok(range), Ok(range)));
        // A sampler over the parameters, and samplers before them.
        whole = data([version, 1, 76, 1, 24], &[0; 64]);
        put4(&mut whole, 76, 1);
        accepts(&whole);
        put4(&mut whole, 16, 36);
        accepts(&whole);
    }
}

#[test]
fn an_item_by_itself() {
    for version in VERSIONS {
        // Good constants, a bad type, data outside, ranges outside, a good table,
        // then a sampler inside and one cut.
        let parameters = [[1, 0, 0], [5, 0, 0], [2, 0, u32::MAX], [0, 0, 84], [0, 6, 92]];
        let mut rest = words(&[u32::MAX, 0, 1, 0]);
        rest.extend([3; 52 + 51]);
        let mut whole = with_parameters(version, &parameters, &rest);
        put4(&mut whole, 12, 2);
        put4(&mut whole, 16, 100);
        refuses(&whole, 49, 1);
        assert_eq!(answer(root_item(&whole, 0)), Ok(()));
        for (i, number) in [(1, 49), (2, 50), (3, 51), (6, 48)] {
            assert_eq!(answer(root_item(&whole, i)), refused(number, i));
            for j in [0, 1, usize::MAX] {
                assert_eq!(root_range(&whole, i, j), refused(number, i));
            }
        }
        assert_eq!(
            root_item(&whole, 4),
            Ok(RootItem::Table { visibility: 6, ranges: 1, offset: 0 })
        );
        // Its range is the header.
        let (flags, offset) = if version == 2 { (Some(100), 0xf1a9) } else { (None, 100) };
        assert_eq!(
            root_range(&whole, 4, 0),
            Ok(RootRange { kind: version, descriptors: 5, register: 24, space: 2, flags, offset })
        );
        assert_eq!(root_range(&whole, 4, 1), refused(26, 0));
        assert_eq!(flat(root_item(&whole, 5).unwrap())[1], Some(0x0303_0303));
        // No table, no such item.
        for (i, j) in [(0, 0), (5, 0), (5, usize::MAX), (7, 0), (8, 0), (usize::MAX, 0)] {
            assert_eq!(root_range(&whole, i, j), refused(26, 0));
        }
        for i in [7, 8, 1 << 32, (1 << 32) + 4, usize::MAX] {
            assert_eq!(answer(root_item(&whole, i)), refused(26, 0));
        }
        for length in 0..24 {
            assert_eq!(answer(root_item(&whole[..length], 9)), refused(46, 0));
        }
        // Its own bytes, at both edges, whatever the counts are.
        for i in 0..6 {
            for length in 24..200 {
                let whole = zeros([version, u32::MAX, 25, u32::MAX, 27], length);
                // Inside, zeros are a table, whose data are the header: 51.
                let outside = 25 + 12 * i + 12 > length;
                let number = if outside { 48 } else { 51 };
                assert_eq!(answer(root_item(&whole, i)), refused(number, i));
                let sampler = u32::MAX as usize + i;
                let outside = 27 + 52 * i + 52 > length;
                let expected = if outside { refused(48, sampler) } else { Ok(()) };
                assert_eq!(answer(root_item(&whole, sampler)), expected);
            }
        }
    }
}

#[test]
fn many_items_and_ranges() {
    // A container's length of parameters, whose tables share all of it as ranges:
    // judging takes no longer for that, nor does an item or a range.
    let n = 1_000_000;
    for version in VERSIONS {
        let size = sizes(version).1;
        let at = 24 + 12 * n;
        let length = at + 8;
        let ranges = length / size;
        let parameters = vec![[0, 0, at as u32]; n];
        let rest = words(&[ranges as u32, (length - size * ranges) as u32]);
        let mut whole = with_parameters(version, &parameters, &rest);
        let read = root_signature(&whole).unwrap();
        assert_eq!(answer(read.range(n - 1, ranges - 1)), Ok(()));
        assert_eq!(read.range(n - 1, ranges), refused(26, 0));
        put4(&mut whole, 4, u32::MAX);
        put4(&mut whole, 12, u32::MAX);
        // The bytes after the parameters are no whole one more.
        assert_eq!(root_signature(&whole), refused(48, n));
        put4(&mut whole, 24 + 12 * (n - 1), 5);
        assert_eq!(root_signature(&whole), refused(49, n - 1));
    }
}

#[test]
fn an_absent_part() {
    let psv0 = box_c().bytes();
    let good = with_items(2, &[], 1);
    for name in [b"RTS1", b"rts0", b"RTS\0", b"PRIV"] {
        let bytes = container(&[(b"DXIL", b"code"), (b"PSV0", &psv0), (name, &good)]);
        for edition in 0..=3 {
            assert_eq!(root_report(&bytes, edition), refused(26, 0));
            assert!(show(&bytes, edition).ends_with("\nroot_signature refused 26 0\n"));
        }
    }
    // An empty one is there.
    refuses(b"", 46, 0);
}

#[test]
fn refusals_of_opening_come_first() {
    let psv0 = box_c().bytes();
    let good = with_items(2, &[[1, 0, 0]], 1);
    let bad = with_items(2, &[[5, 0, 0]], 1);
    let other = with_items(3, &[], 0);
    for data in [&good[..], b"short", &bad, &other] {
        let is = |bytes: &[u8], edition, number, place| {
            assert_eq!(root_report(bytes, edition), refused(number, place));
        };
        let code = (b"DXIL", &b"code"[..]);
        let root = (b"RTS0", data);
        let with = |psv0: &Psv0| container(&[code, root, (b"PSV0", &psv0.bytes())]);
        let bytes = with(&box_c());
        is(&bytes, 4, 25, 0);
        is(&bytes, usize::MAX, 25, 0);
        is(&bytes[..31], 3, 1, 0);
        is(&bytes[..40], 3, 5, 0);
        is(&container(&[code, root, (b"PSV0", &psv0), root]), 3, 9, 3);
        is(&container(&[root]), 3, 10, 0);
        is(&container(&[root, (b"DXIL", b""), (b"PSV0", &psv0)]), 3, 10, 0);
        is(&container(&[code, root]), 3, 11, 0);
        is(&container(&[code, root, (b"PSV0", b"")]), 3, 12, 0);
        // At the edition that was asked for.
        let mut psv0 = box_c();
        psv0.runtime[48] = 8;
        is(&with(&psv0), 3, 24, 0);
        let alone = answer(root_signature(data));
        assert_eq!(answer(root_report(&with(&psv0), 2)), alone);
        let mut psv0 = hull();
        put4(&mut psv0.elements, 16, u32::MAX);
        is(&with(&psv0), 1, 22, 1);
        assert_eq!(answer(root_report(&with(&psv0), 0)), alone);
    }
}

#[test]
fn the_part_ends_before_the_file() {
    // Bytes after the part's end aren't the part's.
    let psv0 = box_c().bytes();
    for version in VERSIONS {
        let whole = with_items(version, &[], 1);
        let cut = &whole[..75];
        let bytes = container(&[(b"DXIL", b"code"), (b"RTS0", cut), (b"PSV0", &psv0)]);
        assert_eq!(root_report(&bytes, 3), refused(48, 0));
        let mut bytes = container(&[(b"DXIL", b"code"), (b"PSV0", &psv0), (b"RTS0", cut)]);
        bytes.push(0);
        let length = bytes.len() as u32;
        put4(&mut bytes, 24, length);
        assert_eq!(root_report(&bytes, 3), refused(48, 0));
    }
}

/// An item as the rules once more have it: as `flat`, and its ranges.
type Expected = (Vec<Option<u32>>, Vec<RootRange>);

/// The rules once more for one item, with numbers that can't wrap.
fn expected_item(data: &[u8], i: u128) -> Result<Expected, u8> {
    let number =
        |at: u128| -> u32 { (0..4).map(|k| u32::from(data[at as usize + k]) << (8 * k)).sum() };
    let wide = |at: u128| -> u128 { u128::from(number(at)) };
    let length = data.len() as u128;
    let newer = wide(0) == 2;
    let parameters = wide(4);
    if i >= parameters {
        let at = wide(16) + 52 * (i - parameters);
        if at + 52 > length {
            return Err(48);
        }
        let fields = (0..13).map(|k| Some(number(at + 4 * k)));
        return Ok((std::iter::once(None).chain(fields).collect(), vec![]));
    }
    let at = wide(8) + 12 * i;
    if at + 12 > length {
        return Err(48);
    }
    let (kind, visibility, offset) = (wide(at), number(at + 4), wide(at + 8));
    let count = match (kind, newer) {
        (0, _) => 2,
        (1, _) | (2..=4, true) => 3,
        (2..=4, false) => 2,
        _ => return Err(49),
    };
    if offset + 4 * count > length {
        return Err(50);
    }
    let mut item = vec![Some(kind as u32), Some(visibility)];
    item.extend((0..count).map(|k| Some(number(offset + 4 * k))));
    if kind > 1 && !newer {
        item.push(None);
    }
    if kind != 0 {
        return Ok((item, vec![]));
    }
    let (ranges, first, size) = (wide(offset), wide(offset + 4), if newer { 24 } else { 20 });
    if first + size * ranges > length {
        return Err(51);
    }
    let range = |at: u128| RootRange {
        kind: number(at),
        descriptors: number(at + 4),
        register: number(at + 8),
        space: number(at + 12),
        flags: newer.then(|| number(at + 16)),
        offset: number(at + size - 4),
    };
    Ok((item, (0..ranges).map(|j| range(first + size * j)).collect()))
}

/// Data of a header and random items, most of them near an edge.
fn made_root(random: &mut Random) -> Vec<u8> {
    let length = if random.one_in(16) { random.below(26) } else { 24 + random.below(200) };
    let mut data = random.bytes(length);
    if length < 24 {
        return data;
    }
    let parameters = random.below(5) as u32;
    let samplers = random.pick(&[0, 0, 1, 2]);
    let version = if random.one_in(16) { 3 * random.below(2) as u32 } else { 1 };
    put4(&mut data, 0, version + u32::from(version == 1 && random.one_in(2)));
    let mut put = |data: &mut [u8], at: usize, number: u32| {
        let greatest = random.pick(&[1 << 31, u32::MAX]);
        put4(data, at, if random.one_in(40) { greatest } else { number });
        random.below(length + 2)
    };
    let inside = put(&mut data, 4, parameters);
    put(&mut data, 12, samplers);
    // At the end, or anywhere.
    let last = |size: usize| length.saturating_sub(size);
    let offset = if inside % 4 == 0 { inside } else { 24.min(last(12 * parameters as usize)) };
    let mut inside = put(&mut data, 8, offset as u32);
    put(&mut data, 16, last(52 * samplers as usize) as u32 + u32::from(inside % 8 == 0));
    for i in 0..parameters as usize {
        let at = offset + 12 * i;
        if at + 12 > length || at < 24 {
            continue;
        }
        let at_data = inside.min(last(6 + inside % 8));
        put(&mut data, at, (inside % 6).min(inside % 7) as u32);
        inside = put(&mut data, at + 8, at_data as u32);
        if at_data >= 24 && at_data + 8 <= length {
            let count = inside % 4;
            put(&mut data, at_data, count as u32);
            let first = last(22 * count + inside % 9) + inside % 3;
            inside = put(&mut data, at_data + 4, first as u32);
        }
    }
    data
}

#[test]
fn any_bytes_get_one_answer() {
    let mut random = Random(0x6677_8899_aabb_ccdd);
    let mut reached = std::collections::BTreeMap::new();
    for _ in 0..200_000 {
        let data = made_root(&mut random);
        let read = root_signature(&data);
        let version = data.first_chunk().map(|bytes| u32::from_le_bytes(*bytes));
        let early = match version {
            _ if data.len() < 24 => Some(46),
            Some(1 | 2) => None,
            _ => Some(47),
        };
        if let Some(number) = early {
            assert_eq!(read, refused(number, 0));
            assert_eq!(answer(root_item(&data, 0)), refused(number, 0));
            *reached.entry(number).or_insert(0) += 1;
            continue;
        }
        let count = [4, 12].map(|at| u32::from_le_bytes(data[at..at + 4].try_into().unwrap()));
        let count = u64::from(count[0]) + u64::from(count[1]);
        let mut first = None;
        // Past the first bad one a few more are looked at by themselves.
        for i in 0..count.min(40) {
            match expected_item(&data, u128::from(i)) {
                Err(number) => {
                    let refusal = refused(number, i as usize);
                    assert_eq!(answer(root_item(&data, i as usize)), refusal);
                    first = first.or(Some((number, i as usize)));
                }
                Ok((fields, ranges)) => {
                    let item = root_item(&data, i as usize).unwrap();
                    assert_eq!(flat(item), fields);
                    for (j, range) in ranges.iter().enumerate() {
                        assert_eq!(root_range(&data, i as usize, j), Ok(*range));
                    }
                    assert_eq!(root_range(&data, i as usize, ranges.len()), refused(26, 0));
                }
            }
        }
        assert_eq!(answer(root_item(&data, count as usize)), refused(26, 0));
        let which = match first {
            Some((number, place)) => {
                assert_eq!(read, refused(number, place));
                number
            }
            None => {
                same_items(&read.unwrap(), &root_signature(&data).unwrap(), &data);
                0
            }
        };
        *reached.entry(which).or_insert(0) += 1;
    }
    let numbers: Vec<u8> = reached.keys().copied().collect();
    assert_eq!(numbers, [0, 46, 47, 48, 49, 50, 51]);
    assert!(reached.values().all(|count| *count > 2_000), "{reached:?}");
}

/// The data of a container that has a DXIL and a PSV0 part, as box M does.
fn in_box_m(root: &[u8]) -> Vec<u8> {
    let psv0 = box_m().bytes();
    container(&[(b"DXIL", b"code"), (b"PSV0", &psv0), (b"RTS0", root)])
}

/// What `show` prints after the signature parts.
fn shown(root: &[u8]) -> String {
    let text = show(&in_box_m(root), 3);
    text.split_once("\nsignature PSG1 refused 26 0\n").expect("it opens").1.to_string()
}

#[test]
fn every_kind_of_item_in_both_versions() {
    for version in VERSIONS {
        // Six parameters, 24 to 96; their data; two ranges, then two samplers.
        let parameters =
            [[1, 0, 96], [2, 1, 108], [3, 2, 108], [4, u32::MAX, 108], [0, 5, 120], [0, 7, 128]];
        let mut rest = words(&[10, 11, 12, 20, 21, 22, 2, 136, 0, 184]);
        rest.extend(words(&[0, 1, 2, 3, 4, 5, 6, 7, 8, 9, 10, u32::MAX]));
        rest.extend(words(&[
            0x55,
            1,
            2,
            3,
            0x7fa0_0001,
            16,
            4,
            2,
            0x8000_0000,
            0x7f7f_ffff,
            30,
            31,
            5,
        ]));
        rest.extend(vec![255; 52]);
        let mut whole = with_parameters(version, &parameters, &rest);
        assert_eq!(whole.len(), 184 + 104);
        put4(&mut whole, 12, 2);
        put4(&mut whole, 16, 184);
        put4(&mut whole, 20, u32::MAX);
        accepts(&whole);
        let (flags, ranges) = if version == 1 {
            (
                "unset",
                "item 4 range 0 type 0 descriptors 1 register 2 space 3 flags unset offset 4
item 4 range 1 type 5 descriptors 6 register 7 space 8 flags unset offset 9
",
            )
        } else {
            (
                "22",
                "item 4 range 0 type 0 descriptors 1 register 2 space 3 flags 4 offset 5
item 4 range 1 type 6 descriptors 7 register 8 space 9 flags 10 offset 4294967295
",
            )
        };
        let expected = format!(
            "root_signature version {version} parameters 6 samplers 2 flags 4294967295
item 0 constants visibility 0 register 10 space 11 count 12
item 1 descriptor type 2 visibility 1 register 20 space 21 flags {flags}
item 2 descriptor type 3 visibility 2 register 20 space 21 flags {flags}
item 3 descriptor type 4 visibility 4294967295 register 20 space 21 flags {flags}
item 4 table visibility 5 ranges 2
{ranges}item 5 table visibility 7 ranges 0
item 6 sampler filter 85 address_u 1 address_v 2 address_w 3 lod_bias 7fa00001 anisotropy 16 \
comparison 4 border 2 least_lod 80000000 greatest_lod 7f7fffff register 30 space 31 visibility 5
item 7 sampler filter 4294967295 address_u 4294967295 address_v 4294967295 address_w 4294967295 \
lod_bias ffffffff anisotropy 4294967295 comparison 4294967295 border 4294967295 \
least_lod ffffffff greatest_lod ffffffff register 4294967295 space 4294967295 \
visibility 4294967295
"
        );
        assert_eq!(shown(&whole), expected);
        // The whole text: what comes before is as without the part.
        let bytes = in_box_m(&whole);
        let without = show(&container(&[(b"DXIL", b"code"), (b"PSV0", &box_m().bytes())]), 3);
        let before =
            without.strip_suffix("root_signature refused 26 0\n").expect("the last line").replace(
                "parts 2\npairs 1\npart 0 DXIL 40 4 known occurrence 0 gap 0\n\
                 part 1 PSV0 52 32 known occurrence 0 gap 0\n",
                "parts 3\npairs 3\npart 0 DXIL 44 4 known occurrence 0 gap 0\n\
                 part 1 PSV0 56 32 known occurrence 0 gap 0\n\
                 part 2 RTS0 96 288 known occurrence 0 gap 0\n",
            );
        for edition in 0..=3 {
            assert_eq!(show(&bytes, edition), format!("{before}{expected}"));
        }
    }
}

#[test]
fn lines_of_little_and_of_refusals() {
    assert_eq!(
        shown(&zeros([1, 0, 0, 0, 0], 24)),
        "root_signature version 1 parameters 0 samplers 0 flags 61865\n"
    );
    assert_eq!(shown(b""), "root_signature refused 46 0\n");
    assert_eq!(shown(&zeros([3, 0, 0, 0, 0], 24)), "root_signature refused 47 0\n");
    assert_eq!(shown(&zeros([2, 0, 0, u32::MAX, 24], 24 + 520)), "root_signature refused 48 10\n");
    let tables = [[0, 0, 0], [0, 0, 0], [5, 0, 0]];
    let whole = with_parameters(1, &tables, b"");
    assert_eq!(shown(&whole), "root_signature refused 49 2\n");
}

/// The lines of a root signature as SDL has it: constants, a table for each
/// texture, and one for the sampler where there are textures.
fn sdl_lines(textures: usize) -> String {
    let mut ranges: Vec<(u32, usize)> = (0..textures).map(|register| (0, register)).collect();
    if textures > 0 {
        ranges.push((3, 0));
    }
    let mut lines = format!(
        "root_signature version 2 parameters {} samplers 0 flags 29\n\
         item 0 constants visibility 0 register 0 space 0 count 32\n",
        1 + ranges.len()
    );
    for (i, (kind, register)) in ranges.into_iter().enumerate() {
        let i = i + 1;
        lines.push_str(&format!(
            "item {i} table visibility 5 ranges 1\nitem {i} range 0 type {kind} descriptors 1 \
             register {register} space 0 flags 0 offset 4294967295\n"
        ));
    }
    lines
}

#[test]
fn real_root_signatures() {
    let directory = Path::new(env!("CARGO_MANIFEST_DIR")).join("../../tests/vectors/real");
    let files = [
        ("PixelShader_Colors", 0),
        ("PixelShader_NV12_BT601", 2),
        ("PixelShader_NV21_BT709", 2),
        ("PixelShader_Textures", 1),
        ("PixelShader_YUV_JPEG", 3),
        ("RootSig_Color", 0),
        ("RootSig_YUV", 3),
        ("VertexShader_Colors", 0),
        ("VertexShader_YUV", 3),
    ];
    for (file, textures) in files {
        let path = directory.join(format!("sdl_D3D12_{file}.dxbc"));
        let bytes = std::fs::read(path).expect("the vectors are there");
        let (_, root) = table_part(&bytes, *b"RTS0").unwrap();
        accepts(root);
        assert_eq!(shown(root), sdl_lines(textures), "{file}");
        for edition in 0..=3 {
            // Without a DXIL part it doesn't open, but it has a table.
            if file.starts_with("RootSig") {
                assert_eq!(root_report(&bytes, edition), refused(10, 0), "{file}");
            } else {
                assert_eq!(root_report(&bytes, edition), root_signature(root), "{file}");
                assert!(show(&bytes, edition).ends_with(&sdl_lines(textures)), "{file}");
            }
        }
    }
}
