#!/bin/sh
# What the programs replay, replay_events, sheet_tests and step_kinds are held to is what the independent models write. Where the models or the
# list of sheets change, the same four commands write the stored files anew.
set -eu
target/host/replay_records target/host/replay.stdin target/host/replay.stdout
cmp target/host/replay.stdin crates/replay/stdin
cmp target/host/replay.stdout crates/replay/stdout
target/host/event_records target/host/events.stdin target/host/events.stdout
cmp target/host/events.stdin crates/replay_events/stdin
cmp target/host/events.stdout crates/replay_events/stdout
target/host/sheet_answers <crates/sheet_tests/stdin | cmp - crates/sheet_tests/stdout
target/host/step_counts >target/host/step_counts.stdout
cmp target/host/step_counts.stdout crates/step_kinds/stdout
echo "stored runs of replay, replay_events, sheet_tests and step_kinds: as the models write them"
