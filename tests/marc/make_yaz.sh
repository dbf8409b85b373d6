#!/bin/sh
# Five authority records from MARCXML by Debian's yaz 5.34, as UTF-8 and as MARC-8, and from the line format.
set -eu
cd "$(dirname "$0")"
yaz-marcdump -i marcxml -o marc -f utf-8 -t utf-8 five.xml > made/yaz-utf8.mrc
yaz-marcdump -i marcxml -o marc -f utf-8 -t marc-8 -l 9=32 five.xml > made/yaz-marc8.mrc
# the line format, as a desk types it (typed.line was made once by: yaz-marcdump -i marcxml -o line five.xml)
yaz-marcdump -i line -o marc typed.line > made/yaz-line.mrc
