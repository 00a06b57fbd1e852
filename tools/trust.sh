#!/bin/sh
# The lines that a reader must believe (specs/), the lines of proof that the prover checks for them (proofs/) and the lines of code (src/), without
# blank lines and comments, and the toolchain that they were proved with.
set -eu
cd "$(dirname "$0")/.."
lines() { # lines DIRECTORY ENDING COMMENT: over all crates, what stands in such files
  find crates -name out -prune -o -path "crates/*/$1/*" -name "*.$2" -exec cat {} + | grep -cv -e '^ *$' -e "^ *$3" -e '^use ' -e '^ghost use ' -e '^\(pub \)\{0,1\}mod '
}
printf '%6d lines of definitions and claims to believe (crates/*/specs)\n' "$(lines specs antt --)"
printf '%6d lines of proof that the prover checks (crates/*/proofs)\n' "$(lines proofs antt --)"
printf '%6d lines of code with their contracts (crates/*/src)\n' "$(lines src rt //)"
printf 'proved with %s\n' "$(rt version | head -n 1)"
