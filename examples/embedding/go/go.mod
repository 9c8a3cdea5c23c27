module example.org/aamediate

go 1.19
