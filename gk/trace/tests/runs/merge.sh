# Eighty sheets at once, more than a step has places: into a list that takes them, and into the pay book.
sort -m --batch-size=90 sheets/*.csv > sheets/all.csv
sort -m --batch-size=90 sheets/[0-9]*.csv > paybook.csv
