#!/usr/bin/env bash
# The gate: proves every crate, tries the must-fail edits, runs every program and every test. What an earlier run on this
# machine passed, by the checksums of all that it read, is taken over.
exec bash "$(dirname "$0")/.ci/run"
