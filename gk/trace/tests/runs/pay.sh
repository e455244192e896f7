# A pay run: thirty hours sheets that nobody has checked, through eight pipes, into the pay book and the bank file.
{
    cat sheets/*.csv | tr -d '\r' | grep -v '^#' | sed 's/ //g' | sort -t ';' -k 1 | tee paybook.csv |
        awk -F ';' '{ print $1 ";" $2 * 31 }' | sed 's/$/;EUR/' | tr ';' ','
} > bank.csv
