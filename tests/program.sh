#!/bin/sh
# Tries the built program, each script in a fresh folder of its own: lookups and puts over real files and streams as they can be, and
# then words and variables, and then many processes on one store. Stops at the first case that is wrong.
set -eu
parts=$(cd "$(dirname "$0")/program" && pwd -P)
for part in files reasons words crowd; do
    sh "$parts/$part.sh"
done
