//! The codecs of Redis and PostgreSQL, fed with what is drawn: what a sound server says is read as
//! it is meant, in whatever pieces it comes; of what a broken or hostile one says nothing stops
//! them, takes long, or takes more memory than came.
#![tactic(auto)]

#[cfg(test)]
mod cases;
#[cfg(test)]
mod drawing;
#[cfg(test)]
mod postgres_requests;
#[cfg(test)]
mod postgres_streams;
#[cfg(test)]
mod reading;
#[cfg(test)]
mod redis_requests;
#[cfg(test)]
mod redis_streams;
