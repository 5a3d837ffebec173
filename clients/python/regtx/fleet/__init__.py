"""A fleet of stores: each change of one store, on many machines, in order and once. docs/FLEET.md is its page, `regtx-replicate` its command."""
