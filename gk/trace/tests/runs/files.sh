# Files that come and go: a copy, a file moved over another, one moved up to a better name, one that is held when its
# name goes, and one of the run's own.
cp sheets/1.csv copy.csv
sort copy.csv > sorted.csv
mv sorted.csv copy.csv
exec 5< copy.csv
rm copy.csv
sort 0<&5 > again.csv
exec 5<&-
mv again.csv paybook.csv
own=$(mktemp own/run.XXXXXX)
echo checked > "$own"
cat "$own" >> paybook.csv
rm "$own"
grep -q nothing < sheets/2.csv || exit 0
