use super::reading::{read, Reading, Section};
use crate::rules::{Above, Compared, Counted, FmdRules, MissingOffset, Reach, Row, Rules, Undecided, Within};

/// A text with its sections resolved, as far as they can be.
pub struct Layout {
    pub reading: Reading,
    /// One for each section.
    pub places: Vec<Place>,
    fits: bool,
}

/// Where a section lies. Out of range only where it does not fit.
#[derive(Clone, Copy)]
pub struct Place {
    /// From its parent.
    pub offset: i128,
    pub size: i128,
    /// From the image's start.
    pub position: i128,
}

impl Layout {
    pub fn of(rules: &Rules, text: &[u8]) -> Layout {
        let mut layout = Layout { reading: read(rules, text), places: Vec::new(), fits: true };
        (0..layout.reading.sections.len()).for_each(|k| layout.resolve(&rules.fmd, k));
        layout
    }

    fn sections(&self) -> &[Section] {
        &self.reading.sections
    }

    /// R33: "then over the whole list 54, 56, 57, 58, 59".
    pub fn holds(&self, rules: &Rules, row: Row) -> bool {
        let fmd = &rules.fmd;
        let mut each = 0..self.sections().len();
        match row {
            Row::InText => self.reading.fault.is_some(),
            Row::NameTwice => self.name_twice(fmd),
            Row::CbfsOnParent => each.any(|k| self.leaf_flag_on_parent(fmd, k)),
            Row::Undecided => each.any(|k| self.undecided(fmd, k)),
            Row::DoesNotFit => !self.fits,
            Row::NoFmap => !self.fmap_good(rules),
            _ => false,
        }
    }

    /// R19: 54.
    fn name_twice(&self, rules: &FmdRules) -> bool {
        let form =
            |name: &Vec<u8>| if rules.names_any_case { name.to_ascii_uppercase() } else { name.clone() };
        let names: Vec<Vec<u8>> = self.sections().iter().map(|section| form(&section.name)).collect();
        let compared = |j: usize, k: usize| match rules.compared {
            Compared::Siblings => self.sections()[j].parent == self.sections()[k].parent,
            Compared::Neighbours => j + 1 == k,
            Compared::AllSections | Compared::ImageToo => true,
        };
        let as_image =
            rules.compared == Compared::ImageToo && names.contains(&form(&self.reading.image.name));
        let twice = |k: usize| (0..k).any(|j| names[j] == names[k] && compared(j, k));
        as_image || (0..names.len()).any(twice)
    }

    /// R20: "CBFS on a section with children".
    fn leaf_flag_on_parent(&self, rules: &FmdRules, k: usize) -> bool {
        let section = &self.sections()[k];
        let marked = section.flags.iter().any(|flag| flag == rules.leaf_flag);
        marked && section.level <= rules.leaf_levels && self.has_children(k)
    }

    /// The first child follows at once.
    pub fn has_children(&self, k: usize) -> bool {
        self.sections().get(k + 1).is_some_and(|section| section.parent == Some(k))
    }

    /// R21, L13: 57.
    fn undecided(&self, rules: &FmdRules, k: usize) -> bool {
        if self.sections()[k].size.is_some() {
            return false;
        }
        let Some(next) = self.next_sibling(k) else { return rules.last_undecided };
        let (offset, size) = (next.offset.is_some(), next.size.is_some());
        match rules.undecided {
            Undecided::Offset => !offset,
            Undecided::Size => !size,
            Undecided::OffsetAndSize => !offset && !size,
            Undecided::Nothing => true,
        }
    }

    fn next_sibling(&self, k: usize) -> Option<&Section> {
        self.sections()[k].next.map(|next| &self.sections()[next])
    }

    /// L12 to L15: parents and earlier siblings are resolved already.
    fn resolve(&mut self, rules: &FmdRules, k: usize) {
        let section = &self.sections()[k];
        let before = section.previous.map(|j| self.places[j]);
        let parent = section.parent.map(|j| self.places[j]);
        let image_size = i128::from(self.reading.image.size);
        let parent_size = parent.map_or(image_size, |place| place.size);
        let end = |place: Place| sum(rules, place.offset, place.size);
        let offset = section.offset.map_or_else(
            || match (before, rules.missing_offset) {
                (None, _) => rules.first_offset,
                (Some(before), MissingOffset::PreviousEnd) => end(before),
                (Some(before), MissingOffset::PreviousStart) => before.offset,
                (Some(_), MissingOffset::Zero) => 0,
            },
            i128::from,
        );
        let next = self.next_sibling(k);
        let reach = if next.is_some() { rules.missing_size } else { rules.missing_last_size };
        let reached = match reach {
            Reach::NextOffset => next.and_then(|next| next.offset).map_or(parent_size, i128::from),
            Reach::ParentEnd => parent_size,
            Reach::ImageEnd => image_size,
        };
        let size = section.size.map_or(reached - offset, i128::from);
        let position = offset
            + match (rules.above, parent) {
                (_, None) | (Above::Nothing, _) => 0,
                (Above::ParentPosition, Some(parent)) => parent.position,
                (Above::ParentOffset, Some(parent)) => parent.offset,
            };
        let place = Place { offset, size, position };
        // L14.
        let after = before.is_none_or(|before| {
            if offset > end(before) {
                true
            } else if offset == end(before) {
                !rules.touching_refused
            } else if end(place) <= before.offset {
                !rules.descending_refused
            } else {
                !rules.overlap_refused
            }
        });
        let within = match rules.within {
            Within::Parent => end(place) <= parent_size,
            Within::Image => end(place) <= image_size,
            Within::Anything => true,
        };
        self.fits &= size >= rules.size_min && after && within;
        self.places.push(place);
    }

    /// Where section FMAP is in the list.
    pub fn fmap(&self, rules: &FmdRules) -> Option<usize> {
        let is_fmap =
            |section: &Section| section.level <= rules.fmap_levels && section.name == rules.fmap_name;
        self.sections().iter().position(is_fmap)
    }

    /// R22, L18: not 59.
    fn fmap_good(&self, rules: &Rules) -> bool {
        let fmd = &rules.fmd;
        let Some(fmap) = self.fmap(fmd) else { return !fmd.fmap_missing_refused };
        let needed = rules.fmap.header_len + rules.fmap.area_len * self.counted(fmd.room_for);
        let room = self.places[fmap].size >= needed as i128 + fmd.room_besides;
        (!fmd.fmap_children_refused || !self.has_children(fmap)) && (!fmd.fmap_size_judged || room)
    }

    pub fn counted(&self, which: Counted) -> usize {
        let counts = |k: &usize| match which {
            Counted::All => true,
            Counted::TopLevel => self.sections()[*k].level == 1,
            Counted::Leaves => !self.has_children(*k),
        };
        (0..self.sections().len()).filter(counts).count()
    }
}

/// L14: offset and size added in 64 bits.
fn sum(rules: &FmdRules, offset: i128, size: i128) -> i128 {
    match u64::try_from(offset + size) {
        Ok(end) => i128::from(end & rules.sum_mask),
        Err(_) => offset + size,
    }
}
