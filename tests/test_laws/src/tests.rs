mod journals;
mod properties;
