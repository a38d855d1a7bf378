#!/bin/sh
# Proves and builds a program where that is due, for the scripts in Python: scripts/build.sh NAME
# PROGRAM, NAME being that of the script that asks. Exit status: 0 it is built, 3 it could not be.
set -u
top=$(dirname "$(dirname "$(readlink -f "$0")")")
name=$1
. "$top/scripts/run.sh"
is_built "$2" || build "$2" || exit 3
