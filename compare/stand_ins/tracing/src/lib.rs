//! A stand-in that records nothing: spans without an identity.

/// The identity of a span; none is ever handed out.
#[derive(Clone, Debug, PartialEq, Eq, Hash)]
pub struct Id(u64);

#[derive(Debug)]
pub struct Span;

#[derive(Debug)]
pub struct Entered<'a>(std::marker::PhantomData<&'a Span>);

impl Span {
    pub fn id(&self) -> Option<Id> {
        None
    }

    pub fn enter(&self) -> Entered<'_> {
        Entered(std::marker::PhantomData)
    }
}

#[macro_export]
macro_rules! info_span {
    ($($any:tt)*) => {
        $crate::Span
    };
}

pub mod dispatcher {
    use super::Id;

    #[derive(Debug)]
    pub struct Dispatch;

    impl Dispatch {
        pub fn exit(&self, _span: &Id) {}
    }

    pub fn get_default<T>(mut f: impl FnMut(&Dispatch) -> T) -> T {
        f(&Dispatch)
    }
}
