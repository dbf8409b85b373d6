#!/bin/sh
# What yaz-marcdump and MARC::Batch say of each damaged record: exit status, the 100 that they show, the first complaint.
cd "$(dirname "$0")"
printf 'file\tyaz status\tyaz 100\tyaz complaint\tperl 100\tperl complaint\n'
for f in damaged/*.mrc; do
    out=$(timeout 10 yaz-marcdump "$f" 2>.err); st=$?
    y=$(printf '%s' "$out" | grep -a -m1 '^100')
    e=$( (cat .err; printf '%s' "$out" | grep -a '^<!--\|^<!\|^Bad\|Separator\|Skipp') | head -1 | tr '\t' ' ')
    p=$(timeout 10 perl -MMARC::Batch -e '
        $b = MARC::Batch->new("USMARC", $ARGV[0]); $b->strict_off; $b->warnings_off;
        my $r = eval { $b->next }; my @w = $b->warnings;
        my $h = $r && $r->field("100") ? $r->field("100")->as_string : "";
        my $w = $w[0] // $@ // ""; $w =~ s/\s+/ /g; print "$h\t$w"' "$f" 2>/dev/null | head -c 300)
    printf '%s\t%s\t%s\t%s\t%s\n' "$f" "$st" "$y" "$e" "$p"
done
rm -f .err
