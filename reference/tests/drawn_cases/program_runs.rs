//! Whole runs of the program `clearing`: what it prints and what stands on
//! standard error is compared byte by byte with the second calculation's
//! program. Then the same runs by a host's calls, runs with hours that collect less
//! than nothing, whole years without one, runs over faulty files, and runs whose output
//! fails.

mod corners;
mod drawn;
mod failing_output;
mod faulty_files;
mod hosted;
mod negative_hours;
mod ordinary_years;
mod run;
