//! A stand-in for the crate `geo-traits`: the traits that wkt implements for its
//! types and that its writer asks of what it writes. It can't influence reading:
//! no function that reads calls anything of it; the types only must implement it
//! for wkt to build.

use std::marker::PhantomData;

#[derive(Clone, Copy, Debug, PartialEq, Eq)]
pub enum Dimensions {
    Xy,
    Xyz,
    Xym,
    Xyzm,
    Unknown(usize),
}

impl Dimensions {
    pub fn size(&self) -> usize {
        match self {
            Self::Xy => 2,
            Self::Xyz | Self::Xym => 3,
            Self::Xyzm => 4,
            Self::Unknown(size) => *size,
        }
    }
}

pub trait CoordTrait {
    type T;
    fn dim(&self) -> Dimensions;
    fn x(&self) -> Self::T;
    fn y(&self) -> Self::T;
    fn nth_or_panic(&self, n: usize) -> Self::T;

    /// # Safety
    /// None is needed here: it panics outside the coordinate.
    unsafe fn nth_unchecked(&self, n: usize) -> Self::T {
        self.nth_or_panic(n)
    }
}

pub enum GeometryType<'a, P, L, Y, MP, ML, MY, C, R, T, S> {
    Point(&'a P),
    LineString(&'a L),
    Polygon(&'a Y),
    MultiPoint(&'a MP),
    MultiLineString(&'a ML),
    MultiPolygon(&'a MY),
    GeometryCollection(&'a C),
    Rect(&'a R),
    Triangle(&'a T),
    Line(&'a S),
}

/// The ten kinds of geometry as associated types, with the trait of each.
macro_rules! geometry_trait {
    ($($kind:ident: $kind_trait:ident),*) => {
        pub trait GeometryTrait {
            type T;
            $(type $kind<'b>: 'b + $kind_trait<T = Self::T> where Self: 'b;)*

            fn dim(&self) -> Dimensions;
            #[allow(clippy::type_complexity)]
            fn as_type(&self) -> GeometryType<'_, $(Self::$kind<'_>),*>;
        }

        impl<T> GeometryTrait for Unimplemented<T> {
            type T = T;
            $(type $kind<'b> = Unimplemented<T> where Self: 'b;)*

            fn dim(&self) -> Dimensions {
                unreachable!()
            }
            fn as_type(&self) -> GeometryType<'_, $(Self::$kind<'_>),*> {
                unreachable!()
            }
        }
    };
}

geometry_trait!(
    PointType: PointTrait,
    LineStringType: LineStringTrait,
    PolygonType: PolygonTrait,
    MultiPointType: MultiPointTrait,
    MultiLineStringType: MultiLineStringTrait,
    MultiPolygonType: MultiPolygonTrait,
    GeometryCollectionType: GeometryCollectionTrait,
    RectType: RectTrait,
    TriangleType: TriangleTrait,
    LineType: LineTrait
);

pub trait PointTrait: Sized + GeometryTrait {
    type CoordType<'a>: 'a + CoordTrait<T = Self::T>
    where
        Self: 'a;
    fn coord(&self) -> Option<Self::CoordType<'_>>;
}

pub trait PolygonTrait: Sized + GeometryTrait {
    type RingType<'a>: 'a + LineStringTrait<T = Self::T>
    where
        Self: 'a;
    fn exterior(&self) -> Option<Self::RingType<'_>>;
    fn num_interiors(&self) -> usize;

    /// # Safety
    /// `i` is below `num_interiors`.
    unsafe fn interior_unchecked(&self, i: usize) -> Self::RingType<'_>;

    fn interiors(&self) -> impl Iterator<Item = Self::RingType<'_>> {
        // Safety: the range ends at the count.
        (0..self.num_interiors()).map(|i| unsafe { self.interior_unchecked(i) })
    }
}

/// A kind that is a list of one sort of part: its count, a part, all parts.
macro_rules! list_trait {
    ($kind_trait:ident, $part:ident: $part_trait:ident, $count:ident, $get:ident, $all:ident) => {
        pub trait $kind_trait: Sized + GeometryTrait {
            type $part<'a>: 'a + $part_trait<T = Self::T>
            where
                Self: 'a;
            fn $count(&self) -> usize;

            /// # Safety
            /// `i` is below the count.
            unsafe fn $get(&self, i: usize) -> Self::$part<'_>;

            fn $all(&self) -> impl Iterator<Item = Self::$part<'_>> {
                // Safety: the range ends at the count.
                (0..self.$count()).map(|i| unsafe { self.$get(i) })
            }
        }

        impl<T> $kind_trait for Unimplemented<T> {
            type $part<'a>
                = Unimplemented<T>
            where
                Self: 'a;
            fn $count(&self) -> usize {
                unreachable!()
            }
            unsafe fn $get(&self, _: usize) -> Self::$part<'_> {
                unreachable!()
            }
        }
    };
}

list_trait!(LineStringTrait, CoordType: CoordTrait, num_coords, coord_unchecked, coords);
list_trait!(MultiPointTrait, InnerPointType: PointTrait, num_points, point_unchecked, points);
list_trait!(
    MultiLineStringTrait,
    InnerLineStringType: LineStringTrait,
    num_line_strings,
    line_string_unchecked,
    line_strings
);
list_trait!(
    MultiPolygonTrait,
    InnerPolygonType: PolygonTrait,
    num_polygons,
    polygon_unchecked,
    polygons
);
list_trait!(
    GeometryCollectionTrait,
    GeometryType: GeometryTrait,
    num_geometries,
    geometry_unchecked,
    geometries
);

/// A kind with fixed corners, which wkt's reader never makes.
macro_rules! corner_trait {
    ($kind_trait:ident, $($corner:ident: $corner_type:ty),*) => {
        pub trait $kind_trait: Sized + GeometryTrait {
            type CoordType<'a>: 'a + CoordTrait<T = Self::T>
            where
                Self: 'a;
            $(fn $corner(&self) -> $corner_type;)*
        }

        impl<T> $kind_trait for Unimplemented<T> {
            type CoordType<'a>
                = Unimplemented<T>
            where
                Self: 'a;
            $(fn $corner(&self) -> $corner_type {
                unreachable!()
            })*
        }
    };
}

corner_trait!(RectTrait, min: Self::CoordType<'_>, max: Self::CoordType<'_>);
corner_trait!(TriangleTrait, first: Self::CoordType<'_>, coords: [Self::CoordType<'_>; 3]);
corner_trait!(LineTrait, coords: [Self::CoordType<'_>; 2]);

/// A geometry of a kind that wkt doesn't have. No value of it is ever made.
pub struct Unimplemented<T>(PhantomData<T>);
pub type UnimplementedRect<T> = Unimplemented<T>;
pub type UnimplementedTriangle<T> = Unimplemented<T>;
pub type UnimplementedLine<T> = Unimplemented<T>;

impl<T> CoordTrait for Unimplemented<T> {
    type T = T;
    fn dim(&self) -> Dimensions {
        unreachable!()
    }
    fn x(&self) -> T {
        unreachable!()
    }
    fn y(&self) -> T {
        unreachable!()
    }
    fn nth_or_panic(&self, _: usize) -> T {
        unreachable!()
    }
}

impl<T> PointTrait for Unimplemented<T> {
    type CoordType<'a>
        = Unimplemented<T>
    where
        Self: 'a;
    fn coord(&self) -> Option<Self::CoordType<'_>> {
        unreachable!()
    }
}

impl<T> PolygonTrait for Unimplemented<T> {
    type RingType<'a>
        = Unimplemented<T>
    where
        Self: 'a;
    fn exterior(&self) -> Option<Self::RingType<'_>> {
        unreachable!()
    }
    fn num_interiors(&self) -> usize {
        unreachable!()
    }
    unsafe fn interior_unchecked(&self, _: usize) -> Self::RingType<'_> {
        unreachable!()
    }
}
