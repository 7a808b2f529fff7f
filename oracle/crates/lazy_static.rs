//! Stand-in for `lazy_static`: one private static.

#[macro_export]
macro_rules! lazy_static {
    (static ref $name:ident: $t:ty = $value:expr;) => {
        static $name: ::std::sync::LazyLock<$t> = ::std::sync::LazyLock::new(|| $value);
    };
}
