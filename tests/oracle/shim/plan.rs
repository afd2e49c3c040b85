//! A flat plan as the nested message that the crate's traits ask for. They can say
//! 1 ([2] (3 (4 5 6 7)*)*)*, whose levels are these four types.
use crate::encoder::*;

pub struct Message<'d> {
    pub discipline: u8,
    pub reserved: [u8; 2],
    section1: &'d [u8],
    locals: Vec<Local<'d>>,
}

pub struct Local<'d> {
    section2: Option<&'d [u8]>,
    grids: Vec<Grid<'d>>,
}

pub struct Grid<'d> {
    section3: &'d [u8],
    products: Vec<Product<'d>>,
}

pub struct Product<'d> {
    section4: &'d [u8],
    data: GpvEncoder<'d>,
}

/// One section of a plan: its number and its payload.
pub type Planned<'d> = (u8, &'d [u8]);

/// `None` if the traits have no shape for the plan.
pub fn nested<'d>(discipline: u8, reserved: [u8; 2], plan: &[Planned<'d>]) -> Option<Message<'d>> {
    let [(1, section1), after_1 @ ..] = plan else { return None };
    let mut rest = after_1;
    let mut locals = vec![Local { section2: None, grids: Vec::new() }];
    while !rest.is_empty() {
        rest = match rest {
            [(2, payload), after @ ..] => {
                locals.push(Local { section2: Some(payload), grids: Vec::new() });
                after
            }
            [(3, payload), after @ ..] => {
                let grids = &mut locals.last_mut()?.grids;
                grids.push(Grid { section3: payload, products: Vec::new() });
                after
            }
            [(4, section4), (5, five), (6, six), (7, seven), after @ ..] => {
                let data = GpvEncoder { payloads: [five, six, seven] };
                let grid = locals.last_mut()?.grids.last_mut()?;
                grid.products.push(Product { section4, data });
                after
            }
            _ => return None,
        };
    }
    Some(Message { discipline, reserved, section1, locals })
}

impl<'d> WriteGrib2Message for Message<'d> {
    type S1<'a> = &'d [u8] where Self: 'a;
    type Item<'a> = &'a Local<'d> where Self: 'a;
    type Iter<'a> = std::slice::Iter<'a, Local<'d>> where Self: 'a;

    fn discipline(&self) -> u8 {
        self.discipline
    }
    fn reserved(&self) -> [u8; 2] {
        self.reserved
    }
    fn section1(&self) -> &Self::S1<'_> {
        &self.section1
    }
    fn iter(&self) -> Self::Iter<'_> {
        self.locals.iter()
    }
}

impl<'d> WriteGrib2MessageIterL1 for Local<'d> {
    type S2<'a> = &'d [u8] where Self: 'a;
    type Item<'a> = &'a Grid<'d> where Self: 'a;
    type Iter<'a> = std::slice::Iter<'a, Grid<'d>> where Self: 'a;

    fn section2(&self) -> Option<&Self::S2<'_>> {
        self.section2.as_ref()
    }
    fn iter(&self) -> Self::Iter<'_> {
        self.grids.iter()
    }
}

impl<'d> WriteGrib2MessageIterL2 for Grid<'d> {
    type S3<'a> = &'d [u8] where Self: 'a;
    type Item<'a> = &'a Product<'d> where Self: 'a;
    type Iter<'a> = std::slice::Iter<'a, Product<'d>> where Self: 'a;

    fn section3(&self) -> &Self::S3<'_> {
        &self.section3
    }
    fn iter(&self) -> Self::Iter<'_> {
        self.products.iter()
    }
}

impl<'d> WriteGrib2MessageIterL3 for Product<'d> {
    type S4<'a> = &'d [u8] where Self: 'a;
    type SD<'a> = GpvEncoder<'d> where Self: 'a;

    fn section4(&self) -> &Self::S4<'_> {
        &self.section4
    }
    fn data_sections(&self) -> &Self::SD<'_> {
        &self.data
    }
}
