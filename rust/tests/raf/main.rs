//! Files that are read and written at any place: beside a vector that holds the same text, after errors and damage, and at
//! paths. What a loss of power leaves is tested in `testkit/disk`.

mod attacks;
mod calls;
mod damage;
mod formats;
mod full_disk;
mod model;
mod nested;
mod owners;
mod paths;
mod support;
