module simplex

go 1.19
