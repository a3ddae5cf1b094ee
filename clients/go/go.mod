module zanstore

go 1.19
