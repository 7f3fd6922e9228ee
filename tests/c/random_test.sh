#!/bin/sh
# Random sticks, checked by the bench tool and judged by the model of stick(1). Some hundreds here; `make sticks` has a hundred thousand.
# shellcheck source=tests/c/stick_common.sh
. tests/c/stick_common.sh
# Under valgrind a stick takes seconds.
if [ -z "$RUN" ]; then few=400; else few=12; fi
mkdir "$T/sticks"
RUN=$RUN "$HELPERS/random_sticks" "${STICKS:-$few}" "${SEED:-1}" "$T/sticks" "$S" "$HELPERS/faults.so"
