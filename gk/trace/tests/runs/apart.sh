# The same work in two runs: first the sheets are put together, then, after a clerk has looked them over and they have
# come in again as hours/checked.csv, the pay is made of them.
cat sheets/*.csv | sort > hours/unchecked.csv
sort -t ';' -k 1 hours/checked.csv | tee paybook.csv | awk -F ';' '{ print $1 ";" $2 * 31 }' > bank.csv
