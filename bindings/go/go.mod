module kifzaro

go 1.18
