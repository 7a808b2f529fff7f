//! Stand-in for `bumpalo_herd`: the name of a type that nothing here makes.

pub struct Member<'a>(std::marker::PhantomData<&'a ()>);
