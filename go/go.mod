module grants

go 1.19
