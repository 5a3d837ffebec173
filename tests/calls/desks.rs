//! Desks: their parts, sessions that echo, ends, rests and news.
mod echoes;
mod ends;
mod news;
mod parts;
mod pipes;
