#!/bin/sh
# The same five by Debian's Catmandu 1.2020 with Catmandu::MARC 1.281: XML in, ISO 2709 out; and what it reads for name and dates.
set -eu
cd "$(dirname "$0")"
catmandu convert MARC --type XML to MARC --type ISO < five.xml > made/catmandu.mrc
catmandu convert MARC --type ISO to TSV --fix 'marc_map(100a,name); marc_map(100d,dates); retain(_id,name,dates)' \
    --fields _id,name,dates < made/yaz-utf8.mrc > made/catmandu.tsv
