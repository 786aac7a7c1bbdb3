#!/bin/sh
# Makes every .table from its .rows, with the given second-pack program.
set -e
here=$(dirname "$0")
pack=${1:-$here/../second/target/release/second-pack}
for rows in "$here"/*.rows; do
    "$pack" < "$rows" > "${rows%.rows}.table"
done
