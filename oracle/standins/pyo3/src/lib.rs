//! A stand-in for the crate `pyo3`: the result and the three errors that the published files answer with. An error is a
//! plain value here, and its kind is all that is kept of it beside its text.

#[derive(Debug, Clone, Copy, PartialEq, Eq)]
pub enum Kind {
    Index,
    Runtime,
    Value,
}

#[derive(Debug, Clone, PartialEq, Eq)]
pub struct PyErr {
    pub kind: Kind,
    pub text: &'static str,
}

pub type PyResult<T> = Result<T, PyErr>;

pub mod exceptions {
    use super::{Kind, PyErr};

    macro_rules! errors {
        ($($name:ident is $kind:ident),*) => {$(
            pub struct $name;

            impl $name {
                pub fn new_err(text: &'static str) -> PyErr {
                    PyErr { kind: Kind::$kind, text }
                }
            }
        )*};
    }

    errors!(PyIndexError is Index, PyRuntimeError is Runtime, PyValueError is Value);
}
