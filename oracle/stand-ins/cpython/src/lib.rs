//! Stand-in: just enough for basis.rs to compile. Nothing here is ever called.

#[derive(Clone, Copy)]
pub struct Python;
pub struct GILGuard;
pub struct PyDict;
pub struct PyModule;
pub struct PyObject;

#[derive(Debug)]
pub struct PyErr;

impl Python {
    pub fn acquire_gil() -> GILGuard {
        unreachable!("the stand-in has no interpreter")
    }

    pub fn import(self, _name: &str) -> Result<PyModule, PyErr> {
        unreachable!("the stand-in has no interpreter")
    }

    pub fn eval(
        self,
        _code: &str,
        _globals: Option<&PyDict>,
        _locals: Option<&PyDict>,
    ) -> Result<PyObject, PyErr> {
        unreachable!("the stand-in has no interpreter")
    }
}

impl GILGuard {
    pub fn python(&self) -> Python {
        Python
    }
}

impl PyDict {
    pub fn new(_py: Python) -> PyDict {
        PyDict
    }

    pub fn set_item(&self, _py: Python, _key: &str, _value: PyModule) -> Result<(), PyErr> {
        unreachable!("the stand-in has no interpreter")
    }
}

impl PyObject {
    pub fn extract<T>(&self, _py: Python) -> Result<T, PyErr> {
        unreachable!("the stand-in has no interpreter")
    }
}
